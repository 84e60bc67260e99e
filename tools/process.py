#!/usr/bin/env python3
"""Runs `radoscls` as a process, on words, files and streams of the system, and compares what it
writes, how it ends and which files it leaves with the rows of tools/process_rows.py and of the
other tools/process_*.py.

    tools/process.py [--tried] [RADOSCLS]

RADOSCLS is the program as `rt run` or `rt ci` leaves it. With --tried it is the one of tools/try.sh:
rows that limit memory are left out, since its checks of memory reserve more, and so are those on a
million bytes and other slow ones, which take it minutes. Each row is one run, in a folder that has
the rows' files, and without environment. It prints each difference and a count; the status is 0 if
nothing differs, and 2 if there is no program."""
import os, re, resource, signal, subprocess, sys, tempfile

TOP = os.path.join(os.path.dirname(os.path.abspath(__file__)), "..")
sys.dont_write_bytecode = True
import process_rows
from process_classes import CLASS_ROWS
from process_clusters import CLUSTER_ROWS
from process_explained import EXPLAINED_ROWS
from process_loops import LOOP_ROWS
from process_objects import OBJECT_ROWS
from process_reports import REPORT_ROWS
from process_rows import CLOSED, FILES, FOLDERS, FULL, LINKS, MODES, NEW, TERMINAL, UNREAD
from process_sim import SIM_ROWS
from process_tests import TEST_ROWS
from process_traces import TRACE_ROWS
from process_words import WORD_ROWS

ROWS = [*process_rows.ROWS, *WORD_ROWS, *CLASS_ROWS, *LOOP_ROWS, *OBJECT_ROWS, *REPORT_ROWS, *EXPLAINED_ROWS,
        *TEST_ROWS, *TRACE_ROWS, *SIM_ROWS, *CLUSTER_ROWS]

# A run has five minutes: the largest class takes seconds.
SECONDS = 300
KILOBYTE, MEGABYTE = 1 << 10, 1 << 20
# The stack of a thread, in a row that limits memory.
STACK = 256 * MEGABYTE


def make_file(folder, name):
    """Makes a file anew, with a time that no run has, or a symbolic link."""
    path = os.path.join(folder, name)
    if name in LINKS:
        os.symlink(LINKS[name], path)
        return
    content = FILES[name]
    with open(path, "wb") as file:
        file.write(content if isinstance(content, bytes) else content.encode())
    os.chmod(path, MODES.get(name, 0o644))
    os.utime(path, (0, 0))


def make_folder(folder):
    for name in *FILES, *LINKS:
        make_file(folder, name)
    for name, files in FOLDERS.items():
        path = os.path.join(folder, name)
        os.mkdir(path)
        for file, content in files.items():
            with open(os.path.join(path, file), "wb") as to:
                to.write(content)
        os.utime(path, (0, 0))


def state_of(folder):
    """What tells a file that is written, or a folder where one is, from one that isn't."""
    found = {}
    for entry in os.scandir(folder):
        status = entry.stat(follow_symlinks=False)
        found[entry.name] = status.st_mode, status.st_ino, status.st_size, status.st_mtime_ns
    return found


def held_by(path, modes):
    """What a file holds that was written, None if it is gone; or its mode, if that didn't stay."""
    if len(set(modes)) > 1:
        return f"mode {modes[-1]:o}"
    if not os.path.isfile(path):
        return None
    with open(path, "rb") as file:
        return file.read()


def take_written(folder, before):
    """The files that were written or are gone, with what they hold; makes all as it was. A new file
    that the program hadn't put in its place yet has the name NEW."""
    after, written = state_of(folder), {}
    for name in {*before, *after}:
        if before.get(name) == after.get(name):
            continue
        path = os.path.join(folder, name)
        modes = [state[name][0] for state in (before, after) if name in state]
        written[re.sub(r"^\.radoscls-[0-9]+$", NEW, name)] = held_by(path, modes)
        if name in after and not os.path.isdir(path):
            os.remove(path)
        if name in FILES or name in LINKS:
            make_file(folder, name)
    return written


def sink_of(where, room=None):
    """A pipe, a file with room for so many bytes, or a stream that takes nothing. A closed one is
    closed in the process, which has the file's limit too."""
    if room is not None:
        return os.memfd_create("standard output")
    if where is None:
        return subprocess.PIPE
    if where == UNREAD:
        read, write = os.pipe()
        os.close(read)
        return write
    return os.open(FULL, os.O_WRONLY)


def shown_on(terminal):
    """What was written to a terminal, None if there is none."""
    if terminal is None:
        return None
    os.set_blocking(terminal, False)
    try:
        return os.read(terminal, 1 << 16)
    except BlockingIOError:
        return b""


def prepare(row):
    """In the process: closes its streams, and limits its files, its memory and its stack. A write
    past that limit fails, or ends the process, and a new thread whose stack has no place fails; a
    stack past its own ends the process."""
    for number, where in (1, row.to), (2, row.err_to):
        if where == CLOSED:
            os.close(number)
    if row.room is not None:
        signal.signal(signal.SIGXFSZ, signal.SIG_DFL if row.killed else signal.SIG_IGN)
        resource.setrlimit(resource.RLIMIT_FSIZE, (row.room, row.room))
    if row.space is not None:
        resource.setrlimit(resource.RLIMIT_STACK, (STACK, STACK))
        resource.setrlimit(resource.RLIMIT_AS, (row.space * MEGABYTE, row.space * MEGABYTE))
    if row.stack is not None:
        resource.setrlimit(resource.RLIMIT_STACK, (row.stack * KILOBYTE, row.stack * KILOBYTE))


def run(program, folder, row):
    """What a row gives on standard output and error, None of one that isn't read; and its status,
    of a signal below 0."""
    terminal, err_to = os.openpty() if row.err_to == TERMINAL else (None, sink_of(row.err_to))
    sinks = [sink_of(row.to, row.room), err_to]
    words = (word if isinstance(word, bytes) else word.encode() for word in row.words)
    try:
        ended = subprocess.run(
            ["radoscls", *words], executable=program, cwd=folder, env={}, input=row.stdin,
            stdout=sinks[0], stderr=sinks[1], timeout=SECONDS, preexec_fn=lambda: prepare(row))
        out = ended.stdout if row.room is None else os.pread(sinks[0], row.room + 1, 0)
        return out, ended.stderr if terminal is None else shown_on(terminal), ended.returncode
    except subprocess.TimeoutExpired:
        return b"", b"", f"none after {SECONDS} seconds"
    finally:
        for sink in (*sinks, terminal):
            if sink not in (None, subprocess.PIPE):
                os.close(sink)


def is_as(wanted, found):
    """Whether a stream has what is wanted."""
    if wanted is None or found is None:
        return wanted is found
    text = found.decode("utf-8", "backslashreplace")
    return bool(wanted(text)) if callable(wanted) else wanted == text


def differences(row, found, written):
    """The names of what differs from a row."""
    out, err, status = found
    checks = {
        "standard output": is_as(row.out, out),
        "standard error": is_as(row.err, err),
        "status": status == row.status,
        "files": written == row.wrote,
    }
    return [name for name, holds in checks.items() if not holds]


def tell(row, found, written, names):
    words = " ".join(map(repr, row.words))[:200]
    print(f"differs in {', '.join(names)}: {words}: status {found[2]}, files {sorted(written)}")
    for name, text in ("1", found[0]), ("2", found[1]):
        for line in (text or b"")[:2000].decode("utf-8", "backslashreplace").splitlines():
            print(f"  {name}> {line}")


def count_differences(program, folder, rows):
    bad = 0
    for row in rows:
        before = state_of(folder)
        found = run(program, folder, row)
        after = row.then and run(program, folder, row.then)
        written = take_written(folder, before)
        names = differences(row, found, written)
        if names:
            tell(row, found, written, names)
        later = row.then and differences(row.then, after, {})
        if later:
            tell(row.then, after, {}, later)
        bad += bool(names or later)
    return bad


def is_light(row):
    """True if a row limits no memory and isn't slow, and neither the files that its words name nor
    standard input have a million bytes."""
    named = sum(len(FILES[name]) for word in row.words for name in FILES if name in str(word))
    return row.space is None and not row.slow and named < 1_000_000 and len(row.stdin) < 1_000_000


def main(words):
    rows = [row for row in ROWS if is_light(row)] if "--tried" in words else ROWS
    program = ([it for it in words if it != "--tried"] or [f"{TOP}/crates/radoscls/out/radoscls"])[0]
    if not os.path.isfile(program):
        print(f"no program: {program}")
        return 2
    with tempfile.TemporaryDirectory() as folder:
        make_folder(folder)
        bad = count_differences(os.path.abspath(program), folder, rows)
    print(f"{len(rows)} rows, {bad} differ")
    return 1 if bad else 0


sys.exit(main(sys.argv[1:]))

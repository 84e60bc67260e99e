#!/usr/bin/env python3
"""Measures calls on whole clusters in threads: calls a second, processor time a call, failovers.

    tools/cluster_bench.py [RADOSCLS [LOAD ..]]

RADOSCLS is what `rt run` leaves, if it isn't given; LOADs are `own`, `one`, `read` and `failover`,
all if none is given. It writes files of `radoscls cluster --stats` into a folder that is deleted,
and prints a table for each load. Every call of a run must be replied to.

The first three have a line for each number of sessions and of replicas, and a column for each number
of workers; a cell that would have more threads than this machine has processors is left out, since it
would measure who waits for one. A cluster has three nodes, 64 groups and four queues. A rate is the
greatest of five runs, as `--stats` tells it. Processor time is the least of five runs, less that of
reading the file, and has the start and printing a line for each call in it.

`failover` has a line for each log and map, and a column for each number of sessions. These fill the
log of one group, on three nodes with one worker; then a map leaves out the primary, or brings it back
if it was left out from the beginning and so has nothing; then each session makes one call. A cell has
milliseconds from the map to the last answer, those of the calls before it, nudges, and messages a
session from the map on: medians of five runs, less those of five runs that end before the map.
"""
import os
import re
import sys
import tempfile
from statistics import median
from pathlib import Path

TOP = Path(__file__).resolve().parent.parent
# The calls of a run, of all its sessions; a group's log holds 65,536.
CALLS = 16_000
RUNS = 5
SESSIONS = (1, 2, 4)
REPLICAS = (1, 3)
WORKERS = (1, 2, 4)
OBJECTS = "abcdefghijklmnop"
# Eight bytes at offset 0, as `obj write` takes them, and their place and number, as `obj read` does.
WRITTEN = (bytes(8) + b"contents").hex()
READ = (bytes(8) + (8).to_bytes(8, "little")).hex()
# The most bytes that a `write` takes, at offset 0.
LONGEST = (bytes(8) + bytes([7]) * 4_088).hex()
# The nodes that are up without the one group's primary, and with it: the primary is node 2.
LESS = "map 0 1"
ALL = "map 0 1 2"


def own(session, call):
    """`lock` and `unlock` by turns, each session on an object of its own."""
    return f"{OBJECTS[session]} lock {('lock', 'unlock')[call % 2]} -"


def one(session, call):
    """The same, all sessions on one object."""
    return own(0, call)


def read(session, call):
    """`obj read` of eight bytes of an object of its own."""
    return f"{OBJECTS[session]} obj read {READ}"


LOADS = {load.__name__: load for load in (own, one, read)}


def lines_of(load, sessions, replicas, workers):
    """A run's file: each session writes its object first, by which its group is active."""
    numbers = f"nodes 3 replicas {replicas} groups 64 shards 4 workers {workers} tries 4294967295"
    lines = [f"cluster {numbers}"]
    lines += [f"client {s + 1} {OBJECTS[s]} obj write {WRITTEN}" for s in range(sessions)]
    # Sessions take turns, since the program gives a part of the lines at a time to its threads.
    lines += [f"client {s + 1} {load(s, call)}" for call in range(CALLS // sessions) for s in range(sessions)]
    return lines


def locks(session, call):
    """The same as `own`, for any number of sessions."""
    return f"o{session} lock {('lock', 'unlock')[call % 2]} -"


def writes(session, _):
    """`obj write` of 4,088 bytes over the ones before, each session to an object of its own."""
    return f"o{session} obj write {LONGEST}"


# What fills the log, and with how many entries; what the map does, and the maps before and after.
LOGS = ((1_000, locks), (16_000, locks), (65_000, locks), (4_000, writes))
MAPS = (("primary lost", [], LESS), ("empty primary back", [LESS], ALL))
FAILOVER_SESSIONS = (1, 4, 16, 64)


def failover_lines(load, entries, sessions, before, after):
    """A run's file up to the map, and the rest of it."""
    def calls(number):
        return [f"client {s + 1} {load(s, number)}" for s in range(sessions)]

    each = entries // sessions
    lines = ["cluster nodes 3 replicas 3 groups 1 shards 1 workers 1 tries 4294967295", *before]
    for number in range(each):
        lines += calls(number)
    return lines, [after, *calls(each)]


class Program:
    """The program, and the folder that its files are in."""

    def __init__(self, path, folder):
        self.path = os.path.abspath(path)
        self.folder = Path(folder)

    def once(self, lines, status):
        """Plays a file: seconds of processor time, and both streams. It must end with that status."""
        file = self.folder / "file"
        file.write_text("\n".join(lines) + "\n")
        paths = [self.folder / "out", self.folder / "err"]
        streams = [os.open(path, os.O_WRONLY | os.O_CREAT | os.O_TRUNC) for path in paths]
        moved = [(os.POSIX_SPAWN_DUP2, stream, to) for to, stream in enumerate(streams, 1)]
        words = [self.path, "cluster", str(file), "--stats"]
        child = os.posix_spawn(self.path, words, os.environ, file_actions=moved)
        for stream in streams:
            os.close(stream)
        _, ended, used = os.wait4(child, 0)
        out, err = (path.read_text() for path in paths)
        if os.waitstatus_to_exitcode(ended) != status:
            sys.exit(f"{lines[0]}: status {os.waitstatus_to_exitcode(ended)}\n{out[-500:]}{err[-500:]}")
        return used.ru_utime + used.ru_stime, out, err

    def run(self, lines):
        """A run's figures by their names, and its seconds of processor time."""
        time, out, err = self.once(lines, 0)
        calls = sum(line.startswith("client ") for line in lines)
        if len(re.findall(r"^client \d+ call \d+ place ", out, re.M)) != calls:
            sys.exit(f"{lines[0]}: a call isn't replied to")
        return {name: int(figure) for name, figure in re.findall(r"^(\D+) (\d+)$", err, re.M)}, time

    def medians(self, lines):
        """The medians of a file's figures."""
        runs = [self.run(lines)[0] for _ in range(RUNS)]
        return {name: median(figures[name] for figures in runs) for name in runs[0]}

    def measure(self, lines):
        """The most calls a second, and the least microseconds of processor time a call."""
        runs = [self.run(lines) for _ in range(RUNS)]
        # A malformed last line: the file is read, and nothing is done.
        reading = min(self.once([*lines, "bad"], 1)[0] for _ in range(RUNS))
        least = min(time for _, time in runs) - reading
        return max(figures["calls a second"] for figures, _ in runs), least / (len(lines) - 1) * 1e6

    def failover(self, sessions, lines, rest):
        """A cell of `failover`."""
        before, all_of_it = self.medians(lines), self.medians(lines + rest)
        millis = all_of_it["map to last answer microseconds"] / 1e3
        calling = before["calls"] / before["calls a second"] * 1e3
        nudges, messages = (all_of_it[name] - before[name] for name in ("nudges", "messages"))
        return f"{millis:.1f}/{calling:.0f}; {nudges}; {messages / sessions:.0f}"


def cell(program, load, sessions, replicas, workers):
    """A cell of the first three."""
    if sessions + workers > len(os.sched_getaffinity(0)):
        return "-"
    rate, micros = program.measure(lines_of(load, sessions, replicas, workers))
    return f"{rate:,}; {micros:.1f} µs"


def print_calls(program, name):
    """The table of one of the first three."""
    print(f"{name}, sessions, replicas | 1 worker | 2 | 4", flush=True)
    for replicas in REPLICAS:
        for sessions in SESSIONS:
            cells = [cell(program, LOADS[name], sessions, replicas, workers) for workers in WORKERS]
            print(f"{sessions}, {replicas} | " + " | ".join(cells), flush=True)


def print_failovers(program):
    """The table of `failover`."""
    print("failover, entries, map | 1 session | 4 | 16 | 64", flush=True)
    for entries, load in LOGS:
        for name, before, after in MAPS:
            cells = [program.failover(sessions, *failover_lines(load, entries, sessions, before, after))
                     for sessions in FAILOVER_SESSIONS]
            print(f"{entries:,} {load.__name__}, {name} | " + " | ".join(cells), flush=True)


def main():
    path = sys.argv[1] if len(sys.argv) > 1 else TOP / "crates/radoscls/out/radoscls"
    names = sys.argv[2:] or [*LOADS, "failover"]
    if not set(names) <= {*LOADS, "failover"}:
        sys.exit(__doc__)
    with tempfile.TemporaryDirectory() as folder:
        program = Program(path, folder)
        for name in names:
            if name == "failover":
                print_failovers(program)
            else:
                print_calls(program, name)


main()

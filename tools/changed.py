#!/usr/bin/env python3
"""Checks what a change touches, between two runs of the gate: it gives no verdict, which is the gate's alone.

    tools/changed.py [REV]

A crate is changed if a file of it, or its line in crates.txt, differs from the commit REV, or from HEAD without one. These
crates and all above them are proved over what `out/` keeps, lowest first, as many side by side as there are processors
(RT_JOBS sets another number); then their tests and stored runs, and the wrong edits of the changed crates (tools/edits.py).
In a clone where nothing is built that proves all crates below once. A copy of a clone by `cp -a` has what it built, a
`git clone` has nothing.

Where the kit's `rt ci` takes names, it is run for these crates in place of the above.

It prints a line for each crate as it ends, and what the prover said of one that fails. The status is 0 if all is well.
"""
import copy
import os
import re
import shutil
import subprocess
import sys
import tempfile
import threading

import kit


def git(*words):
    return subprocess.run(["git", "-C", kit.TOP, *words], stdout=subprocess.PIPE, text=True, check=True).stdout


def changed_since(rev):
    """Returns the names of the crates that differ from that commit."""
    files = git("diff", "--name-only", rev).split("\n") + git("ls-files", "--others", "--exclude-standard").split("\n")
    found = {it.split("/")[1] for it in files if it.startswith("crates/")}
    lines = re.findall(r"(?m)^[-+](\w+)[^-+\n]*:", git("diff", "--unified=0", rev, "--", "crates.txt"))
    return [it for it in kit.names() if it in {*found, *lines}]


def stored_run(crate):
    """Builds a program and compares its run on args, stdin and data/ with stdout and status. Returns 0 if they agree."""
    program, kit_of = f"out/{crate.name}", ["--toolchain", f"{kit.KIT}/toolchain"]
    status = crate.compile(["--jobs", "1"], f"{program}.o")
    words = [f"{program}.o", f"{kit.KIT}/c/libos_c.a", f"{kit.KIT}/c/liblibc_c.a"]
    status = status or crate.call(f"{kit.KIT}/bin/rattle-link", "--target", "x86_64-unknown-linux-gnu", *kit_of, "-o", program, *words)
    if status:
        return status
    with tempfile.TemporaryDirectory() as room:
        if os.path.isdir(f"{crate.folder}/data"):
            shutil.copytree(f"{crate.folder}/data", room, dirs_exist_ok=True)
        words = [f"{crate.folder}/{program}", *crate.said["args"]]
        ran = subprocess.run(words, cwd=room, input=crate.stream("stdin") or b"", stdout=subprocess.PIPE, timeout=600)
    print(ran.stdout.decode(errors="replace"), file=crate.out)
    return int(ran.stdout != (crate.stream("stdout") or b"") or ran.returncode != crate.said["status"])


def check(crate, is_wanted):
    """Proves a crate over what is kept; of a wanted one it looks at the layout, and runs its tests and stored run too. True if
    all is well."""
    crate, flags = copy.copy(crate), ["--jobs", "1"]
    with tempfile.TemporaryFile("w+", errors="replace") as crate.out:
        status = crate.build_rlib(flags, anew=False) if crate.makes_rlib() else crate.check(flags)
        if is_wanted:
            status = status or kit.rtlib.fmt(crate.folder, "--check", crate.out)
            status = status or (crate.run(flags, [], tests=True) if crate.has_tests() else 0)
            status = status or (stored_run(crate) if crate.is_program else 0)
        crate.out.seek(0)
        said = crate.out.read()
    print(f"{crate.name}: well" if not status else f"{crate.name}: FAILED\n{said[-4000:]}", flush=True)
    return not status


def check_all(names, wanted):
    """Checks crates side by side, each after those below it; returns the names of those that fail or aren't tried."""
    crates = {it: kit.crate(it) for it in names}
    below = {it: {dep.name for dep in crates[it].below()} & {*names} for it in names}
    above = {it: sum(it in others for others in below.values()) for it in names}
    left, running, done, news = [*names], set(), {}, threading.Condition()

    def next_one():
        """Waits for a crate that can be checked now, the one that most others wait for; None if none will come."""
        while left:
            ready = [it for it in left if all(done.get(low) for low in below[it])]
            if ready:
                return max(ready, key=above.get)
            if not running:
                return None
            news.wait()
        return None

    def work():
        with news:
            while name := next_one():
                left.remove(name)
                running.add(name)
                news.release()
                well = check(crates[name], name in wanted)
                news.acquire()
                running.discard(name)
                done[name] = well
                news.notify_all()

    lanes = [threading.Thread(target=work) for _ in range(kit.lanes())]
    for it in lanes:
        it.start()
    for it in lanes:
        it.join()
    return [it for it in names if not done.get(it)]


def main(words):
    os.chdir(kit.TOP)
    # (its first call sets a signal's handler, which only the main thread may)
    kit.rtlib.guarded()
    rev = words[0] if words else "HEAD"
    changed = changed_since(rev)
    below = {it: {low.name for low in kit.crate(it).below()} for it in kit.names()}
    above = [it for it in below if {it, *below[it]} & {*changed}]
    print(f"changed since {rev}: {' '.join(changed) or 'no crate'}; {len(above)} crates with those above", flush=True)
    if not above:
        return 0
    help_of_rt = subprocess.run(["rt", "help"], stdout=subprocess.PIPE, stderr=subprocess.STDOUT, text=True).stdout
    if re.search(r"rt ci \[?NAME", help_of_rt):
        return subprocess.run(["rt", "ci", *above]).returncode
    failed = check_all([it for it in below if it in above or any(it in below[high] for high in above)], {*above})
    if failed:
        print(f"FAILED, or not tried: {' '.join(failed)}")
        return 1
    has_edits = [it for it in changed if any(os.path.isdir(f"crates/{it}/{folder}") for folder in ("wrong", "must-fail"))]
    return subprocess.run(["tools/edits.py", "--all", *has_edits]).returncode if has_edits else 0


if __name__ == "__main__":
    sys.exit(main(sys.argv[1:]))

#!/usr/bin/env python3
"""Builds the static library, crates/sillarnica/out/libsillarnica.a, over the libraries that are there.

    tools/archive.py

What `rt ci` leaves of the libraries below holds statements alone, of which `rt lib` takes none: it would prove them once more.
Here the prover is called as `rt lib` calls it, over what is there: it proves `sillarnica` and compiles all. Where a library is
missing, or may have been made from other sources than the present ones, it is `rt lib` that builds the archive. A gate gives
a library that it proved before, with the time of that day: so it is the gate's own time, that of out/gate, that counts.

The status is that of the command.
"""
import os
import subprocess
import sys

import kit


def origin(library):
    """Tells what made the library: the gate, of which no sum is kept, or a check, of the present sources; else None."""
    made, stamp = f"{library.rlib}/format", kit.rtlib.text_of(f"{library.folder}/out/rlib/stamp")
    if not os.path.isfile(made) or stamp not in (None, library.stamp()):
        return None
    times = [os.path.getmtime(it) for it in (made, f"{kit.TOP}/out/gate") if os.path.isfile(it)]
    if stamp is None and any(os.path.getmtime(it) > max(times) for it in kit.rtlib.files_of(library.folder)):
        return None
    return "gate" if stamp is None else "check"


archive = kit.crate("sillarnica")
words = ["rt", "lib"]
if {origin(it) for it in archive.below()} in ({"gate"}, {"check"}):
    flags = ["--toolchain", f"{kit.KIT}/toolchain", "--backend", "llvm", "-o", "out/libsillarnica.a"]
    words = [kit.rtlib.RATTLE, "build", *archive.words(["--jobs", "1"], keeps=False), *flags]
os.makedirs(f"{archive.folder}/out", exist_ok=True)
sys.exit(subprocess.run(words, cwd=archive.folder).returncode)

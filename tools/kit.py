"""The kit's own functions, for the tools of this folder: the crates of crates.txt, and the words of its prover.

Importing it loads what the command `rt` is made of, with one change: what lies below a crate, and the sum of its files, are
found once in a process. `rt` itself finds them once for each way that leads down to the crate in crates.txt.
"""
import functools
import importlib.util
import os
import subprocess
import sys

TOP = os.path.dirname(os.path.dirname(os.path.realpath(__file__)))
# What a prover takes: of all crates four need more, at most 4.3 GB.
ROOM = 3_500_000_000

sys.dont_write_bytecode = True
KIT = os.path.dirname(subprocess.run(["rt", "doc"], stdout=subprocess.PIPE, text=True, check=True).stdout.strip())
_spec = importlib.util.spec_from_file_location("rtlib", f"{KIT}/bin/rtlib.py")
rtlib = sys.modules["rtlib"] = importlib.util.module_from_spec(_spec)
_spec.loader.exec_module(rtlib)

_below = functools.lru_cache(maxsize=None)(rtlib.Crate.below)
rtlib.Crate.below = lambda crate: [*_below(crate)]
rtlib.Crate.stamp = functools.lru_cache(maxsize=None)(rtlib.Crate.stamp)
_known = {}


def crate(name):
    """Returns the crate of that name. A program's stored run has its arguments and status in files."""
    folder = f"{TOP}/crates/{name}"
    if folder not in _known:
        made = _known[folder] = rtlib.Crate(folder, TOP, _known)
        words, status = rtlib.text_of(f"{folder}/args"), rtlib.text_of(f"{folder}/status")
        if made.is_program:
            made.said = {**made.said, "args": (words or "").split("\n")[:-1], "status": int(status or 0)}
    return _known[folder]


def names():
    """Returns the names in crates.txt, each after those that it stands on."""
    listed = [os.path.basename(it) for it in rtlib.listed(TOP)]
    return sorted(listed, key=lambda it: len(crate(it).below()))


def lanes():
    """Returns how many provers run side by side: RT_JOBS, or one a processor, fewer where a quota or memory is short."""
    number = os.environ.get("RT_JOBS", "")
    if number.isdigit() and int(number):
        return int(number)
    found, room = len(os.sched_getaffinity(0)), [1024 * rtlib.number_in("/proc/meminfo", r"MemAvailable:\s+(\d+)")]
    for file, period in rtlib.QUOTAS:
        quota, period = rtlib.number_in(file, r"^(\d+)"), rtlib.number_in(*period)
        found = min(found, max(quota // period, 1)) if quota and period else found
    for limit, held in rtlib.GROUPS:
        limit, held = rtlib.number_in(limit, r"^(\d+)"), rtlib.number_in(*held)
        room += [limit - held] if limit and held is not None else []
    return max(1, min(found, min(room) // ROOM))


if __name__ == "__main__":
    print(lanes())

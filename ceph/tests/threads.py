#!/usr/bin/env python3
"""Eight threads call at once, over the stand-in: each is answered as alone. The program is built with the
compiler's test of threads, and ends with another status if it finds a race.

    threads.py IMAGES PROGRAM FOLDER
"""

import struct
import sys

import osd
from model import Object
from osd import request


def main(words):
    images = osd.images_in(words[0])
    tally, backend = osd.Tally("eight threads at once"), osd.StandIn(*words[1:])
    calls = []
    for at in range(8):
        name, text = f"o{at}", bytes([0x61 + at]) * (500 + at)
        backend.put(name, Object(text, {b"x": text[:9]}, {b"k": text[:20]}), images)
        place = struct.pack("<QQ", at, 400)
        calls.append((name, "helpers", "read", place))
        calls.append((name, "helpers", "write", struct.pack("<Q", at) + text))
        calls.append((name, "count", "count", b""))
        calls.append((name, "bpf", "exec", request(b"helpers", b"read", place, False)))
    for first in range(0, len(calls), 8):
        tally.want(f"calls from {first} on", backend.together(8, 200, calls[first : first + 8]), 0)
    tally.want("all of them", backend.together(32, 100, calls), 0)
    backend.close()
    tally.end()


if __name__ == "__main__":
    main(sys.argv[1:])

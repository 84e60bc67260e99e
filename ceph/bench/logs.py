#!/usr/bin/env python3
"""Writes the image of the class `logs` that ceph/bench.sh measures: a log in the omap.

    logs.py FILE

Its methods: `append` sets a key, the input's first 13 bytes, to the rest; `trim` removes the first key; `list`
answers the 250 names above the input, each in 16 bytes, and their number times 16.
"""

import os
import struct
import sys

sys.path.insert(0, os.path.join(os.path.dirname(os.path.abspath(__file__)), "..", "tests"))
from rounds import ADD, CALL, EXIT, JGT, MOV, MOV_R, at, slot  # noqa: E402

JLT, JSLT, ERROR = 0xA5, 0xC5, slot(MOV, 0, 0, 0, -22) + slot(EXIT)
NAMES, WIDTH = 250, 16


def append():
    body = slot(MOV_R, 4, 2) + slot(ADD, 4, 0, 0, -13) + slot(JGT, 4, 0, 6, 51)
    body += slot(MOV_R, 3, 1) + slot(ADD, 3, 0, 0, 13) + slot(MOV, 2, 0, 0, 13) + slot(CALL, 0, 0, 0, 10) + slot(EXIT)
    return slot(JLT, 2, 0, len(body) // 8, 13) + body + slot(MOV, 5) + ERROR


def trim():
    found = slot(MOV, 1) + at(1, -64) + slot(MOV, 2) + at(3, -64) + slot(MOV, 4, 0, 0, 64) + slot(CALL, 0, 0, 0, 12)
    return found + slot(JGT, 0, 0, 4, 64) + slot(MOV_R, 2, 0) + at(1, -64) + slot(CALL, 0, 0, 0, 11) + slot(EXIT)


def list_names():
    steps = [slot(MOV_R, 7, 1) + slot(MOV_R, 8, 2) + slot(MOV_R, 6, 3) + slot(MOV, 9)]
    for n in range(NAMES):
        start = slot(MOV_R, 1, 6) + slot(ADD, 1, 0, 0, (n - 1) * WIDTH) if n else slot(MOV_R, 1, 7) + slot(ADD, 1)
        step = start + slot(MOV_R, 2, 8) + slot(MOV_R, 3, 6) + slot(ADD, 3, 0, 0, n * WIDTH)
        step += slot(MOV, 4, 0, 0, WIDTH) + slot(CALL, 0, 0, 0, 12)
        left = 11 * (NAMES - 1 - n) + 3
        steps.append(step + slot(JGT, 0, 0, left, WIDTH) + slot(MOV_R, 8, 0) + slot(ADD, 9, 0, 0, WIDTH) + slot(MOV, 0))
    end = slot(MOV_R, 1, 9) + slot(CALL, 0, 0, 0, 13) + slot(MOV_R, 0, 9) + slot(EXIT)
    return b"".join(steps) + end


def method(name, flags, in_cap, out_cap, code):
    head = struct.pack("<BHHH", flags, in_cap, out_cap, len(code) // 8)
    return bytes([len(name)]) + name + head + code + bytes(2)


def main(words):
    methods = method(b"append", 2, 64, 0, append()) + method(b"list", 1, 16, NAMES * WIDTH, list_names())
    methods += method(b"trim", 3, 0, 0, trim())
    with open(words[0], "wb") as file:
        file.write(b"RCL3" + struct.pack("<HH", 3, 0) + methods)


if __name__ == "__main__":
    main(sys.argv[1:])

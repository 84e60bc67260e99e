#!/usr/bin/env python3
"""Inputs for ceph/tests/fuzz.cc to begin with, which has their form.

    fuzz_seeds.py IMAGES FOLDER
"""

import os
import struct
import sys

import osd
from osd import load_request, request

METHODS, CLASSES = 48, 4  # at least as many as there are
THERE, CLASSES_THERE, HEADER, SECOND, MADE, WITH_IMAGE = (1 << n for n in range(6))
NUMBER = struct.pack("<Q", 3)
INPUTS = (b"", NUMBER, NUMBER + NUMBER, b"\3keyvalue", b"x", b"\1\1ababcb\2" + bytes(24), bytes(64))


def entries(pairs):
    short = lambda text: bytes([len(text)]) + text
    return bytes([len(pairs)]) + b"".join(short(name) + short(value) for name, value in pairs)


OBJECT = struct.pack("<H", 40) + entries([(b"x", b"1"), (b"ab", b"")]) + entries([(b"k", b"2"), (b"cb", NUMBER)])


def seed(which, flags, rest, failing=0, of=0, called=0):
    return bytes([which, flags, failing, of, called]) + OBJECT + rest


def seeds(images):
    there = THERE | CLASSES_THERE | HEADER
    requests = [b"", load_request(b"lock"), load_request(b"n", images[b"count"]), images[b"lock"]]
    requests += [request(b"lock", b"lock", b"me", False), request(b"helpers", b"map_set", b"\3newvalue", False)]
    requests += [request(images[b"count"], b"count", b"", True)]
    for which in range(METHODS):
        for rest in requests:
            yield seed(which, there, rest)
    for of in range(CLASSES):
        for called in range(len(INPUTS) * 4):
            for flags in (0, there):
                yield seed(0, flags | MADE, INPUTS[called % len(INPUTS)], 0, of, called)
    for fails in 1, 2, 3:
        for failing in 1, 2, 3, 5, 8:
            yield seed(0, there | MADE | fails << 6, INPUTS[5], failing, 1, 9)
    for image in images.values():
        yield seed(0, there | MADE | WITH_IMAGE, struct.pack("<H", len(image)) + image + b"\5count")
    yield seed(0, there | SECOND, requests[4], 1)


def main(words):
    for n, text in enumerate(seeds(osd.images_in(words[0]))):
        with open(os.path.join(words[1], f"{n:04}"), "wb") as file:
            file.write(text)


if __name__ == "__main__":
    main(sys.argv[1:])

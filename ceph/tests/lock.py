#!/usr/bin/env python3
"""The class `lock` of ceph/classes: each answer of its methods, with numbers of instructions counted by hand.

    lock.py IMAGES cluster CONF | stand-in PROGRAM FOLDER
"""

import struct
import sys

import osd
from model import Object
from osd import request

ME, YOU, LONG = b"my secret", b"yours", bytes(range(64))
XATTRS = {b"n%02d" % n: b"" for n in range(32)}


def holding(value):
    """An object with data, another xattr and a key, whose lock is so."""
    xattrs = {b"x": b"1"} if value is None else {b"x": b"1", b"lock": value}
    return Object(b"text", xattrs, {b"k": b"2"})


def rows():
    """A line each: what, the object, method, input, code, steps, the object after."""
    free, emptied, mine, foreign = holding(None), holding(b""), holding(ME), holding(bytes(65))
    full = Object(b"", XATTRS)
    return [
        ("no owner", free, b"lock", b"", -22, 3, free),
        ("an absent object is created", None, b"lock", ME, 0, 21, Object(b"", {b"lock": ME})),
        ("nobody has had it", free, b"lock", ME, 0, 22, mine),
        ("it was freed", emptied, b"lock", ME, 0, 20, mine),
        ("who has it asks again", mine, b"lock", ME, 0, 43, mine),
        ("another, of another length", mine, b"lock", YOU, -16, 19, mine),
        ("another, with a zero at its end", mine, b"lock", ME + b"\0", -16, 19, mine),
        ("another in its 1st byte", mine, b"lock", b"M" + ME[1:], -16, 22, mine),
        ("another in its 9th byte", mine, b"lock", ME[:8] + b"T", -16, 25, mine),
        ("an owner of one byte", free, b"lock", b"\0", 0, 22, holding(b"\0")),
        ("an owner of 64 bytes", free, b"lock", LONG, 0, 22, holding(LONG)),
        ("it asks again", holding(LONG), b"lock", LONG, 0, 43, holding(LONG)),
        ("another in its 64th byte", holding(LONG), b"lock", LONG[:63] + b"!", -16, 43, holding(LONG)),
        ("a value that is no owner", foreign, b"lock", ME, -34, 17, foreign),
        ("beside 32 xattrs", full, b"lock", ME, 0, 22, Object(b"", {**XATTRS, b"lock": ME})),
        ("unlock: no owner", mine, b"unlock", b"", -22, 3, mine),
        ("unlock: an absent object", None, b"unlock", ME, -2, 14, None),
        ("unlock: nobody has had it", free, b"unlock", ME, -61, 14, free),
        ("unlock: it was freed", emptied, b"unlock", ME, -61, 16, emptied),
        ("unlock: its owner", mine, b"unlock", ME, 0, 46, emptied),
        ("unlock: its owner of 64 bytes", holding(LONG), b"unlock", LONG, 0, 46, emptied),
        ("unlock: another, of another length", mine, b"unlock", YOU, -16, 17, mine),
        ("unlock: another in its 1st byte", mine, b"unlock", b"M" + ME[1:], -16, 20, mine),
        ("unlock: another in its 64th byte", holding(LONG), b"unlock", LONG[:63] + b"!", -16, 41, holding(LONG)),
        ("unlock: a value that is no owner", foreign, b"unlock", ME, -34, 14, foreign),
        ("break: an absent object", None, b"break", b"", -2, 10, None),
        ("break: nobody has had it", free, b"break", b"", -61, 10, free),
        ("break: it was freed", emptied, b"break", b"", -61, 12, emptied),
        ("break: whoever has it", mine, b"break", b"", 0, 17, emptied),
        ("break: an owner of 64 bytes", holding(LONG), b"break", b"", 0, 17, emptied),
        ("break: a value that is no owner", foreign, b"break", b"", -34, 10, foreign),
    ]


def try_rows(backend, tally, image):
    for what, whole, method, owner, code, steps, after in rows():
        backend.put("lock", whole)
        found = backend.call("lock", "exec_sent", request(image, method, owner, True))
        tally.want(what, found, (0, struct.pack("<qQ", code, steps)))
        tally.want(f"the object after: {what}", backend.get("lock"), after)
    backend.put("lock", holding(ME))
    for method, owner in ((b"lock", bytes(65)), (b"unlock", bytes(65)), (b"break", b"\0")):
        found = backend.call("lock", "exec_sent", request(image, method, owner, True))
        tally.want(f"{method} with too many bytes", found, (-90, b""))


def try_sessions(tally, image, open_again):
    """Who knows the secret has the lock, in each session; nobody else has."""

    def run(method, owner=b""):
        session = open_again()
        result = session.call("sessions", "run_sent", request(image, method, owner, True))[0]
        session.close()
        return result

    steps = [(b"lock", ME, 0), (b"lock", YOU, -16), (b"lock", ME, 0), (b"unlock", YOU, -16), (b"unlock", ME, 0)]
    steps += [(b"unlock", ME, -61), (b"lock", YOU, 0), (b"lock", ME, -16), (b"break", b"", 0), (b"lock", ME, 0)]
    for number, (method, owner, result) in enumerate(steps):
        tally.want(f"session {number}: {method} by {owner}", run(method, owner), result)


def main(words):
    image = osd.images_in(words[0])[b"lock"]
    tally, backend = osd.Tally(f"the class lock, {words[1]}"), osd.open_from(words[1:])
    try_rows(backend, tally, image)
    if words[1] == "cluster":
        backend.put("sessions", None)
        try_sessions(tally, image, lambda: osd.open_from(words[1:]))
    backend.close()
    tally.end()


if __name__ == "__main__":
    main(sys.argv[1:])

#!/usr/bin/env python3
"""Which calls of radosbpf are commits: whether each adds an entry to the log of its object's group, which every OSD
of the group writes.

    commits.py CLASSES CONF

CLASSES is a folder with the images lock.img and reads.img.
"""

import contextlib
import ctypes
import io
import json
import os
import sys

import osd
from model import Object
from osd import radosbpf

# A line each: what, the words behind `call`, whether it is a commit, the first line of what is printed. `stat`
# reads alone, by its flags; the methods of `lock` may change something.
ROWS = [
    ("a read by a loaded class", "o reads stat", False, "code 4"),
    ("a read by an image", "o @reads.img stat", False, "code 4"),
    ("a change by an image", "o @lock.img lock --input 6d65", True, "code 0"),
    ("no change by an image", "o @lock.img lock --input 6d65", True, "code 0"),
    ("a method's refusal by an image", "o @lock.img lock --input 796f75", True, "code -16"),
    ("no change by a loaded class", "o lock lock --input 6d65", False, "code 0"),
    ("a method's refusal by a loaded class", "o lock lock --input 796f75", False, "code -16"),
    ("a change by a loaded class", "o lock break", True, "code 0"),
    ("a change, asked to read alone", "o lock lock --input 6d65 --read", False, "refused -30"),
    ("no such method of a loaded class", "o reads none", False, "refused -38"),
    ("no such method of an image", "o @reads.img none", True, "refused -38"),
    ("a read of an absent object", "absent @reads.img stat", True, "code -2"),
    ("the same, asked to read alone", "absent @reads.img stat --read", False, "refused -2"),
]


def command(backend, call, *words, **asked):
    """A command's answer, in JSON."""
    sent = (ctypes.c_char_p * 1)(json.dumps({**asked, "format": "json"}).encode())
    out, length, said, said_length = ctypes.c_char_p(), ctypes.c_size_t(), ctypes.c_char_p(), ctypes.c_size_t()
    result = getattr(backend.c, call)(
        backend.pool.cluster,
        *words,
        sent,
        ctypes.c_size_t(1),
        None,
        ctypes.c_size_t(0),
        ctypes.byref(out),
        ctypes.byref(length),
        ctypes.byref(said),
        ctypes.byref(said_length),
    )
    assert result == 0, (asked, result)
    return json.loads(ctypes.string_at(out, length.value))


def last_entry(backend, oid):
    group = command(backend, "rados_mon_command", prefix="osd map", pool="bpf", object=oid)["pgid"]
    found = command(backend, "rados_pg_command", group.encode(), prefix="pg", pgid=group, cmd="query")
    return found["info"]["last_update"]


def printed_by(words, conf):
    printed = io.StringIO()
    with contextlib.redirect_stdout(printed):
        radosbpf.main(["-p", "bpf", "-c", conf, "call", *words.split()])
    return printed.getvalue()


def main(words):
    folder, conf = words
    tally, backend = osd.Tally("commits"), osd.Cluster(conf)
    images = osd.images_in(folder)
    os.chdir(folder)
    backend.put("o", Object(b"text"), {name: images[name] for name in (b"lock", b"reads")})
    backend.put("absent", None)
    tally.want("the log has no entry", last_entry(backend, "o") == "0'0", False)
    for what, asked, is_commit, line in ROWS:
        oid = asked.split()[0]
        before, found = last_entry(backend, oid), printed_by(asked, conf)
        tally.want(what, found[: len(line) + 1].rstrip("\n:"), line)
        tally.want(f"{what}: a commit", last_entry(backend, oid) != before, is_commit)
    backend.close()
    tally.end()


if __name__ == "__main__":
    main(sys.argv[1:])

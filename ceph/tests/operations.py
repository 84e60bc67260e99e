#!/usr/bin/env python3
"""Calls among other steps of one operation, as Ceph's clients have them: what a method sees behind each kind of step,
and what the object holds in the end.

    operations.py CONF

The classes `helpers` and `counter` are installed.
"""

import ctypes as ct
import struct
import sys

import osd
from model import Object

SIZE, FAILOK = ct.c_size_t, 2  # LIBRADOS_OP_FLAG_FAILOK
ONE = struct.pack("<Q", 1)
OID = b"operation"


def setter(name, value=b""):
    return bytes([len(name)]) + name + value


class Operation:
    """The steps of a write operation; each call keeps its result."""

    def __init__(self, backend):
        self.c, self.io, self.results = backend.c, backend.io, []
        self.op = ct.c_void_p(self.c.rados_create_write_op())

    def create(self, exclusive=0):
        self.c.rados_write_op_create(self.op, exclusive, None)

    def remove(self):
        self.c.rados_write_op_remove(self.op)

    def write_full(self, data):
        self.c.rados_write_op_write_full(self.op, data, SIZE(len(data)))

    def truncate(self, size):
        self.c.rados_write_op_truncate(self.op, ct.c_uint64(size))

    def setxattr(self, name, value):
        self.c.rados_write_op_setxattr(self.op, name, value, SIZE(len(value)))

    def omap_set(self, key, value):
        lengths = SIZE(len(key)), SIZE(len(value))
        words = (ct.c_char_p * 1)(key), (ct.c_char_p * 1)(value), *map(ct.byref, lengths)
        self.c.rados_write_op_omap_set2(self.op, *words, SIZE(1))

    def exists(self):
        self.c.rados_write_op_assert_exists(self.op)

    def guard(self, name, value):
        self.c.rados_write_op_cmpxattr(self.op, name, 1, value, SIZE(len(value)))

    def call(self, cls, method, data=b"", may_fail=False):
        result = ct.c_int(1 << 30)
        self.results.append(result)
        self.c.rados_write_op_exec(self.op, cls, method, data, SIZE(len(data)), ct.byref(result))
        if may_fail:
            self.c.rados_write_op_set_flags(self.op, FAILOK)

    def operate(self):
        done = self.c.rados_write_op_operate2(self.op, self.io, OID, None, osd.radosbpf.RETURNVEC)
        self.c.rados_release_write_op(self.op)
        return done


def operate(backend, steps):
    """An operation of steps, each the name of one and its words: its result, and those of its calls."""
    operation = Operation(backend)
    for name, *words in steps:
        getattr(operation, name)(*words)
    return operation.operate(), [result.value for result in operation.results]


# What a method sees behind a step: the length by `stat`, data, whether the object is there by an exclusive `create`, and
# the lengths of an xattr `x`, of a key `k` and of an entry of the call's environment. -114: there is data, which isn't read
# there; -17: it is there; 0: it wasn't; -2: it isn't; -61: it has none of that name.
SEES = [(b"stat", b""), (b"read", bytes(8) + ONE), (b"create", ONE), (b"getxattr", b"x"), (b"map_get", b"k")]
SEES.append((b"getxattr", b"\0time"))
TEXT = Object(b"text", {b"x": b"1"}, {b"k": b"2"})
STEPS = [
    (None, ("create",), [0, 0, -17, -61, -61, 8]),
    (None, ("write_full", b"other"), [5, -114, -17, -61, -61, 8]),
    (None, ("truncate", 2), [-2, -2, 0, -2, -2, -2]),
    (None, ("setxattr", b"x", b"12345"), [0, 0, -17, -61, -61, 8]),
    (None, ("omap_set", b"k", b"12345"), [0, 0, -17, -61, -61, 8]),
    (TEXT, ("create",), [4, -114, -17, 1, 1, 8]),
    (TEXT, ("write_full", b"other"), [5, -114, -17, 1, 1, 8]),
    (TEXT, ("write_full", b""), [0, 0, -17, 1, 1, 8]),
    (TEXT, ("truncate", 2), [2, -114, -17, 1, 1, 8]),
    (TEXT, ("truncate", 0), [0, 0, -17, 1, 1, 8]),
    (TEXT, ("setxattr", b"x", b"12345"), [4, -114, -17, 1, 1, 8]),
    (TEXT, ("omap_set", b"k", b"12345"), [4, -114, -17, 1, 1, 8]),
    (TEXT, ("remove",), [-2, -2, 0, -2, -2, -2]),
]


def try_seen(backend, tally):
    for before, step, wanted in STEPS:
        for (method, data), code in zip(SEES, wanted):
            backend.put(OID.decode(), before)
            found = operate(backend, [step, ("call", b"helpers", method, data, True)])
            # (a code above 0 of the last step is the operation's result)
            result = max(code, 0)
            tally.want(f"{method} behind {step} of {before}", found, (result, [code]))


def whole(data=b"text", xattrs=None, keys=None):
    return Object(data, {b"x": b"1"} if xattrs is None else xattrs, {b"k": b"2"} if keys is None else keys)


def rows():
    """A line each: what, the object, the steps, the operation's result and those of the calls, the object after."""
    helpers = lambda method, data=b"": ("call", b"helpers", method, data)
    add = ("call", b"counter", b"add", ONE)
    foo, scratch = Object(b"", {b"foo": b"bar"}), helpers(b"scratch", b"new")
    counted = whole(keys={b"k": b"2", b"n": ONE})
    return [
        (
            "an xattr to what it was, behind a step that set it",
            foo,
            [("setxattr", b"foo", b"xxxxx"), helpers(b"setxattr", setter(b"foo", b"bar"))],
            (0, [0]),
            foo,
        ),
        (
            "a key to what it was, behind a step that set it",
            TEXT,
            [("omap_set", b"k", b"xxxxx"), helpers(b"map_set", setter(b"k", b"2"))],
            (0, [0]),
            TEXT,
        ),
        ("two calls that both read what was", TEXT, [add, add], (0, [0, 0]), counted),
        (
            "two calls that write other things",
            TEXT,
            [helpers(b"setxattr", setter(b"y", b"3")), helpers(b"map_rm", b"k")],
            (0, [0, 0]),
            whole(xattrs={b"x": b"1", b"y": b"3"}, keys={}),
        ),
        (
            "made, written and counted, as RBD makes a header",
            None,
            [("create", 1), ("write_full", b"header"), add],
            (0, [0]),
            Object(b"header", {}, {b"n": ONE}),
        ),
        (
            "guarded, written and counted, as RGW writes an object",
            TEXT,
            [("guard", b"x", b"1"), ("create",), ("write_full", b"new"), ("setxattr", b"y", b"3"), add],
            (0, [0]),
            Object(b"new", {b"x": b"1", b"y": b"3"}, {b"k": b"2", b"n": ONE}),
        ),
        (
            "a guard that fails",
            TEXT,
            [("guard", b"x", b"2"), ("write_full", b"new"), add],
            (-125, [0]),
            TEXT,
        ),
        ("an object that isn't there", None, [("exists",), add], (-2, [0]), None),
        (
            "an xattr goes, behind a step",
            TEXT,
            [("setxattr", b"y", b"3"), helpers(b"rmxattr", b"x")],
            (-114, [-114]),
            TEXT,
        ),
        (
            "an xattr goes, before a step",
            TEXT,
            [helpers(b"rmxattr", b"x"), ("setxattr", b"y", b"3"), ("omap_set", b"m", b"4")],
            (0, [0]),
            whole(xattrs={b"y": b"3"}, keys={b"k": b"2", b"m": b"4"}),
        ),
        (
            "an xattr comes and goes",
            TEXT,
            [scratch, ("setxattr", b"y", b"3")],
            (0, [0]),
            whole(xattrs={b"x": b"1", b"y": b"3"}),
        ),
        (
            "data is read behind a step that wrote all of it",
            TEXT,
            [("write_full", b"other"), helpers(b"read", bytes(8) + b"\4".ljust(8, b"\0"))],
            (-114, [-114]),
            TEXT,
        ),
        (
            "an object is removed behind a step",
            TEXT,
            [("setxattr", b"y", b"3"), helpers(b"remove")],
            (0, [0]),
            None,
        ),
    ]


def try_rows(backend, tally):
    for what, before, steps, (done, codes), after in rows():
        backend.put(OID.decode(), before)
        found = operate(backend, steps)
        tally.want(what, found[0], done)
        if done != -125 and done != -2:  # a call behind a step that fails isn't made
            tally.want(f"the calls' results: {what}", found[1], codes)
        tally.want(f"the object after: {what}", backend.get(OID.decode()), after)


def main(words):
    tally, backend = osd.Tally("calls among other steps"), osd.Cluster(words[0])
    try_seen(backend, tally)
    try_rows(backend, tally)
    backend.put(OID.decode(), None)
    backend.close()
    tally.end()


if __name__ == "__main__":
    main(sys.argv[1:])

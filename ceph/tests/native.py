#!/usr/bin/env python3
"""Classes that are installed under their own names: what a client sees of them, and an operator.

    native.py IMAGES cluster CONF USER KEYRING | stand-in PROGRAM FOLDER

USER may call the method `add` of the class `counter` in the pool `bpf`, and nothing else; `coded` is another pool,
erasure-coded.
"""

import ctypes
import hashlib
import os
import struct
import subprocess
import sys
import tempfile
import time

import osd
from model import Object, address_of
from osd import request


LONG = bytes(range(256)) * 16
LONGEST = (16 * LONG)[:65535]


def number(value):
    return struct.pack("<q", value)


def setter(name, value=b""):
    return bytes([len(name)]) + name + value


def rows():
    """A line each: what, the object, class, method, input, result, output, the object after."""
    text = Object(b"text", {b"x": b"1"}, {b"k": b"2"})
    counted = Object(b"", {}, {b"n": number(1)})
    longest = Object(b"text", {b"x": b"x" * 4096}, {b"k": b"2"})
    written = Object(b"text", {b"x": b"1", b"new": b"v"}, {b"k": b"2"})
    timed = Object(b"text", {b"x": b"1", b"time": b"time"}, {b"k": b"2"})
    many = lambda count: Object(b"", {b"%02d" % n: b"v" for n in range(count)})
    headed = lambda count: Object(b"", many(count).xattrs, {b"head": b"v", b"header": b"v"})
    more = Object(b"", {**many(100).xattrs, b"100": b"v"})
    return [
        ("a change of an absent object", None, "count", "count", b"", 1, number(1), counted),
        ("a read", text, "helpers", "read", number(1) + number(2), 2, b"ex", text),
        ("a read of an absent object", None, "helpers", "stat", b"", -2, b"", None),
        ("a method's own error", text, "helpers", "create", number(1), -17, b"", text),
        ("a change", text, "helpers", "setxattr", setter(b"new", b"v"), 0, b"", written),
        ("an input past what the method takes", text, "helpers", "stat", b"1", -22, b"", text),
        ("the longest input", text, "helpers", "code", number(5), 5, b"", text),
        ("an input one byte past it", text, "helpers", "code", number(5) + b"\0", -22, b"", text),
        ("no such method", text, "helpers", "none", b"", -95, b"", text),
        ("no image", text, "none", "stat", b"", -95, b"", text),
        ("the least code", text, "helpers", "code", number(-4095), -4095, b"", text),
        ("a code below it", text, "helpers", "code", number(-4096), -75, b"", text),
        ("a code of 32 bits", text, "helpers", "code", number(2**31), -75, b"", text),
        ("EAGAIN", text, "helpers", "code", number(-11), -75, b"", text),
        ("EINPROGRESS", text, "helpers", "code", number(-115), -75, b"", text),
        ("a change, and a code of 32 bits", text, "helpers", "code_change", number(2**31), -75, b"", text),
        ("a long answer of a change", text, "helpers", "reply", number(65), -105, b"", text),
        ("a name of the plug-in's", text, "helpers", "setxattr", setter(b"bpf.x"), -13, b"", text),
        ("an answer of over 16 KB", Object(), "helpers", "fill", LONG, 0, b"", Object(5 * LONG)),
        ("rule set 3: the longest input and output", text, "third", "copy", LONGEST, 65535, LONGEST, text),
        ("rule set 3: an input one byte past it", text, "third", "copy", LONGEST + b"\0", -22, b"", text),
        ("rule set 3: the first xattr", text, "third", "next", b"\0\xff", 1, b"x", text),
        ("rule set 3: the last one", text, "third", "next", b"x", -61, b"", text),
        ("rule set 3: two texts", text, "third", "order", b"\2ab".ljust(64, b"\0") + b"\2b", 1, b"", text),
        ("rule set 3: a value that is too long", text, "third", "set", b"x" * 4097, -27, b"", text),
        ("rule set 3: the longest value", text, "third", "set", b"x" * 4096, 0, b"", longest),
        ("more data", Object(bytes(65537)), "helpers", "stat", b"", 65537, b"", Object(bytes(65537))),
        # the environment: its names, what can't be set, and that its entries count
        *((f"after {name}", text, "third", "next", name, len(after), after, text) for name, after in NAMES),
        ("the same bytes twice", text, "environment", "same", b"", 1, b"", text),
        ("the time is set", text, "helpers", "setxattr", setter(b"\0time", b"v"), -13, b"", text),
        ("the time goes", text, "helpers", "rmxattr", b"\0time", -13, b"", text),
        ("a new such name is set", text, "helpers", "setxattr", setter(b"\0", b"v"), -13, b"", text),
        ("it is set behind other edits", text, "helpers", "mix", b"\1\1\0abbcb\1" + bytes(24), -13, b"", text),
        ("no header goes", text, "helpers", "rmxattr", b"\0header", -61, b"", text),
        ("of an absent object, behind no step", None, "environment", "same", b"", -2, b"", None),
        ("an object is made", None, "environment", "made", b"", 1, b"", Object(b"", {b"time": b"time"})),
        ("no object is made", text, "environment", "made", b"", 0, b"", timed),
        ("27 xattrs", many(27), "helpers", "getxattr", b"26", 1, b"v", many(27)),
        ("a 28th is set", many(27), "helpers", "setxattr", setter(b"27", b"v"), 0, b"", many(28)),
        ("a header as a 28th", many(27), "environment", "header", b"v", 1, b"v", headed(27)),
        ("28 xattrs", many(28), "helpers", "getxattr", b"26", 1, b"v", many(28)),
        ("the time beside 28", many(28), "environment", "same", b"", 1, b"", many(28)),
        ("the first of 100", many(100), "third", "next", b"\0version", 2, b"00", many(100)),
        ("the last of 100", many(100), "third", "next", b"98", 2, b"99", many(100)),
        ("a 101st is set", many(100), "helpers", "setxattr", setter(b"100", b"v"), 0, b"", more),
    ]


# Each name of the environment, and the one after it, of an object whose first xattr is `x`.
NAMES = [
    (b"", b"\0address"),
    (b"\0address", b"\0entity"),
    (b"\0entity", b"\0random"),
    (b"\0random", b"\0time"),
    (b"\0time", b"\0version"),
    (b"\0version", b"x"),
]


def try_rows(backend, tally):
    for what, whole, cls, method, data, result, output, after in rows():
        backend.put("row", whole)
        tally.want(what, backend.call("row", method, data, cls=cls), (result, output))
        tally.want(f"the object after: {what}", backend.get("row"), after)


def sum_of(image):
    return hashlib.sha256(image).hexdigest()


def try_classes(backend, tally, images, wanted):
    """What an OSD says of its classes, and of their calls."""
    backend.put("o", Object(b"text"))
    result, output = backend.call("o", "classes")
    found = dict(line.split(b" ", 1) for line in output.splitlines())
    tally.want("classes", (result, {name: found.get(name) for name in wanted}), (0, wanted))
    tally.want("classes, with an input", backend.call("o", "classes", b"x"), (-22, b""))
    tally.want("stats, with an input", backend.call("o", "stats", b"x"), (-22, b""))
    before = stats(backend)
    backend.call("o", "stat", cls="helpers")
    backend.call("o", "stat", b"1", cls="helpers")
    backend.call("o", "write", bytes(8) + b"other", cls="helpers")
    backend.call("o", "create", number(1), cls="helpers")
    after = stats(backend)

    def taken(method):
        return [after["helpers", method][at] - before["helpers", method][at] for at in (0, 1, 2, 4)]

    # calls, refusals, steps, bytes of edits: one that writes has 13 and its bytes
    tally.want("stats of a read", taken("stat"), [2, 1, 2, 0])
    tally.want("stats of a change", taken("write"), [1, 0, 8, 13 + 5])
    tally.want("stats of a method's error", taken("create"), [1, 0, 3, 0])
    tally.want("nanoseconds", after["helpers", "stat"][3] > before["helpers", "stat"][3], True)
    tally.want("stats of the class bpf", after["bpf", "stats"][0] > before["bpf", "stats"][0], True)


def stats(backend):
    result, output = backend.call("o", "stats")
    assert result == 0, result
    lines = [line.decode().split() for line in output.splitlines()]
    return {(cls, method): [int(each) for each in numbers] for cls, method, *numbers in lines}


def try_stand_in(backend, tally, images, folder):
    opened = {line.split(": ")[1].split(" is ")[0]: line for line in backend.opened if "class " in line}
    cut = "0 bpf: class cut is refused: image refused after 1 methods: 1 Truncated"
    tally.want("a cut image", opened.get("class cut"), cut)
    none = f"0 bpf: class none is refused: there is no image {folder}/none.img"
    tally.want("no image", opened.get("class none"), none)
    line = f"1 bpf: class count is opened, image {sum_of(images[b'count'])}, budget 131072"
    tally.want("a good image", opened.get("class count"), line)
    line = "0 bpf: class count is opened under another name, or a second time"
    tally.want("a link", backend.opened.count(line), 1)
    backend.put("o", Object(b"text"))
    for name in ("cut", "none", "a_link"):
        tally.want(f"a call of {name}", backend.call("o", "stat", cls=name), (-95, b""))
    for what, words, result in (
        ("of no client", {"kind": 4}, -87),
        ("by a number that is too large", {"number": 1 << 32}, -87),
    ):
        tally.want(f"a call {what}", backend.call("o", "stat", cls="helpers", **words), (result, b""))
    found = backend.call("o", "read", number(0) + number(1), cls="helpers", step=1)
    tally.want("a call that reads data, behind another step", found, (-114, b""))
    backend.call("o", "stat", cls="helpers")
    line = "10 helpers.stat: code 4, steps 2, bytes: input 0, output 0, edits 0"
    tally.want("the log of a call", backend.log, [line])
    backend.call("o", "stat", b"secret", cls="helpers")
    tally.want("the log of a refusal", backend.log, ["5 helpers.stat: refused -22"])
    backend.put("o", Object(b"text"), images)
    backend.call("o", "exec", request(b"helpers", b"stat", b"", False))
    line = f"10 bpf.exec helpers.stat: code 4, steps 2, bytes: input 18, output 0, edits 0"
    tally.want("the log of a call by bpf", backend.log, [line])
    backend.call("o", "exec", request(b"helpers", b"st\0at", b"", False))
    tally.want("the log of a strange name", backend.log, ["5 bpf.exec helpers.?: refused -38"])


def entry(backend, oid, name, **words):
    """The value of an entry of the environment, or a negative number."""
    result, output = backend.call(oid, "getxattr", b"\0" + name, cls="helpers", **words)
    return result if result < 0 else output


def try_environment(backend, tally, header_of, set_header):
    """What a call says of itself, and the omap's header."""
    whole = Object(b"text", {b"x": b"1"}, {b"k": b"2"})
    backend.put("env", whole)
    tally.want("no header", (entry(backend, "env", b"header"), header_of("env")), (-61, b""))
    found = backend.call("env", "header", b"new", cls="environment")
    whole.keys.update({b"head": b"new", b"header": b"new"})
    tally.want("the header is set", (found, backend.get("env")), ((3, b"new"), whole))
    tally.want("the header that was set", header_of("env"), b"new")
    tally.want("it is read", entry(backend, "env", b"header"), b"new")
    tally.want("it is listed", backend.call("env", "next", b"\0entity", cls="third"), (7, b"\0header"))
    set_header("env", b"other")
    tally.want("another's is read", entry(backend, "env", b"header"), b"other")
    tally.want("an xattr goes", backend.call("env", "rmxattr", b"x", cls="helpers"), (0, b""))
    tally.want("the header stays", header_of("env"), b"other")
    tally.want("the header goes", backend.call("env", "rmxattr", b"\0header", cls="helpers"), (0, b""))
    tally.want("it is gone", (entry(backend, "env", b"header"), header_of("env")), (-61, b""))
    set_header("env", b"h" * 4096)
    tally.want("the longest header", entry(backend, "env", b"header"), b"h" * 4096)
    set_header("env", b"h" * 4097)
    tally.want("a byte too many", entry(backend, "env", b"header"), -7)
    tally.want("the time beside it", len(entry(backend, "env", b"time")), 8)
    tally.want("where no xattr is asked for", backend.call("env", "stat", cls="helpers"), (4, b""))
    backend.put("env", None)
    data = setter(b"\0header", b"v")
    tally.want("of an absent object", backend.call("env", "setxattr", data, cls="helpers"), (0, b""))
    tally.want("its header", (header_of("env"), backend.get("env")), (b"v", Object()))


def try_stood_in(backend, tally):
    """The values of entries, of calls that only a stand-in of an OSD brings about."""
    backend.put("o", Object(b"text", {b"x": b"1"}), (), b"hd")
    wanted = backend.environment(b"hd")
    found = {name: entry(backend, "o", name[1:]) for name in wanted}
    tally.want("each entry", found, wanted)
    tally.want("an address of IPv4", found[b"\0address"].hex(), IPV4)
    six = struct.pack("<IIH", 2, 1, 10) + b"\x1a\x90" + bytes(4) + bytes(range(16)) + bytes(4)
    tally.want("an address of IPv6", entry(backend, "o", b"address", sender=six).hex(), IPV6)
    tally.want("no address", entry(backend, "o", b"address", sender=b""), address_of(b""))
    left = Object(b"text"), {}, b"new"
    tally.want("as before, behind a step", entry(backend, "o", b"header", step=1, left=left), b"hd")
    tally.want("removed before", entry(backend, "o", b"time", step=1, left=None), -2)
    backend.put("o", None)
    tally.want("made before", entry(backend, "o", b"time", step=1, left=left), struct.pack("<Q", osd.TIME))
    backend.put("o", None)
    tally.want("made for the call", backend.call("o", "made", cls="environment"), (1, b""))
    lines = ["origin", "stat", "random 16", "create", "set xattr 74696d65"]
    steps = "10 environment.made: code 1, steps 42, bytes: input 0, output 0, edits 13"
    tally.want("its reads and changes", (backend.trace, backend.log), (lines, [steps]))
    backend.put("o", Object(b"text", {b"x": b"1"}))
    tally.want("made behind a removal", backend.call("o", "made", cls="environment", step=1, left=None), (1, b""))
    tally.want("what it is then", backend.get("o"), Object(b"", {b"time": b"time"}))
    backend.put("o", None)
    tally.want("its header", entry(backend, "o", b"header", step=1, left=left), -61)


# By hand, after the rows of ceph/plugin/environment.h.
IPV4 = "01" "0101" "1c000000" "03000000" "40e20100" "10000000" "0200" "0007" "0a010203" + "00" * 8
IPV6 = "01" "0101" "28000000" "02000000" "01000000" "1c000000" "0a00" "1a90" "00000000"
IPV6 += bytes(range(16)).hex() + "00" * 4


def exec_of(session, oid, method, data=b"", cls="counter"):
    """As each client of librados calls a class."""
    out, size = ctypes.create_string_buffer(64), ctypes.c_size_t
    words = (oid.encode(), cls.encode(), method.encode(), data, size(len(data)), out, size(64))
    return session.c.rados_exec(session.io, *words), out.raw


def try_rights(tally, admin, conf, user, keyring):
    """A cap for one method of one class in one pool."""
    tenant = osd.Cluster(conf, "bpf", user, keyring=keyring)
    elsewhere = osd.Cluster(conf, "coded", user, keyring=keyring)
    admin.put("right", None)
    tally.want("add", tenant.call("right", "add", number(5), cls="counter"), (0, number(5)))
    tally.want("add, as rados_exec calls", exec_of(tenant, "right", "add", number(2))[0], 0)
    for what, session, cls, method in (
        ("another method", tenant, "counter", "get"),
        ("another class", tenant, "count", "count"),
        ("the class bpf", tenant, "bpf", "list"),
        ("another pool", elsewhere, "counter", "add"),
    ):
        tally.want(what, session.call("right", method, number(1), cls=cls), (-1, b""))
    tally.want("the sum, by who may read it", exec_of(admin, "right", "get")[1][:8], number(7))
    tenant.close()
    elsewhere.close()


def try_operation(backend, tally):
    """A call among other steps of its operation."""
    c, size = backend.c, ctypes.c_size_t
    guard = lambda value: lambda op: c.rados_read_op_cmpxattr(op, b"x", 1, value, size(1))
    failok = lambda op: c.rados_read_op_set_flags(op, 2)  # LIBRADOS_OP_FLAG_FAILOK, of the step before
    room = ctypes.create_string_buffer(64)  # it has to be there when the operation is done
    add = lambda op: c.rados_read_op_exec_user_buf(
        op, b"counter", b"add", number(1), size(8), room, size(64), None, None
    )
    bad = lambda op: c.rados_read_op_exec_user_buf(op, b"counter", b"add", b"", size(0), None, size(0), None, None)
    kept, added = Object(b"text", {b"x": b"1"}), Object(b"text", {b"x": b"1"}, {b"n": number(1)})
    for what, steps, result, after in (
        # (Ceph answers an operation whose last step is a comparison that holds with 1)
        ("a guard that holds, behind a call", [add, guard(b"1")], 1, added),
        ("a guard that fails, behind a call", [add, guard(b"2")], -125, kept),
        ("a guard that holds, before a call", [guard(b"1"), add], 0, added),
        ("a guard that fails, before a call", [guard(b"2"), add], -125, kept),
        # both read the object as it was before the operation
        ("two calls", [add, add], 0, added),
        ("a call that may fail, behind another", [add, add, failok], 0, added),
        ("a call that fails and may", [bad, failok], 0, kept),
    ):
        backend.put("steps", kept)
        op = ctypes.c_void_p(c.rados_create_read_op())
        for step in steps:
            step(op)
        done = c.rados_read_op_operate(op, backend.io, b"steps", osd.radosbpf.RETURNVEC)
        c.rados_release_read_op(op)
        tally.want(what, done, result)
        tally.want(f"the object after: {what}", backend.get("steps"), after)


def try_version(backend, tally):
    """A change is one of the object's versions, and who watches it goes on."""
    c, oid, cookie = backend.c, b"watched", ctypes.c_uint64()
    c.rados_get_last_version.restype = ctypes.c_uint64
    told = ctypes.CFUNCTYPE(
        None, ctypes.c_void_p, ctypes.c_uint64, ctypes.c_uint64, ctypes.c_uint64, ctypes.c_void_p, ctypes.c_size_t
    )(lambda *_: None)
    lost = ctypes.CFUNCTYPE(None, ctypes.c_void_p, ctypes.c_uint64, ctypes.c_int)(lambda *_: None)
    backend.put("watched", Object(b"text", {b"x": b"1"}, {b"k": b"2"}))
    watch = c.rados_watch2(backend.io, oid, ctypes.byref(cookie), told, lost, None)
    tally.want("a watch", watch, 0)
    numbers = []
    for method, data in (("setxattr", setter(b"x", b"2")), ("map_set", setter(b"k", b"3")), ("truncate", number(2))):
        tally.want(method, backend.call("watched", method, data, cls="helpers"), (0, b""))
        numbers.append(c.rados_get_last_version(backend.io))
    tally.want("each is one version", [each - numbers[0] for each in numbers], [0, 1, 2])
    tally.want("the watch goes on", c.rados_watch_check(backend.io, cookie) >= 0, True)
    c.rados_unwatch2(backend.io, cookie)


def try_snapshot(backend, tally):
    """A snapshot keeps what was, and a namespace has objects of its own."""
    c, number_of = backend.c, ctypes.c_uint64()
    backend.put("snapped", Object(b"", {}, {b"n": number(7)}))
    tally.want("a snapshot", c.rados_ioctx_snap_create(backend.io, b"before"), 0)
    tally.want("a change", exec_of(backend, "snapped", "add", number(1))[0], 0)
    c.rados_ioctx_snap_lookup(backend.io, b"before", ctypes.byref(number_of))
    c.rados_ioctx_snap_set_read(backend.io, number_of)
    tally.want("a read of the snapshot", exec_of(backend, "snapped", "get")[1][:8], number(7))
    c.rados_ioctx_snap_set_read(backend.io, ctypes.c_uint64(2**64 - 2))
    tally.want("a read of what is", exec_of(backend, "snapped", "get")[1][:8], number(8))
    c.rados_ioctx_snap_remove(backend.io, b"before")
    backend.put("snapped", None)
    other = osd.Cluster(sys.argv[3], namespace="other")
    tally.want("in a namespace", other.call("snapped", "get", cls="counter"), (-2, b""))
    tally.want("a change in it", other.call("snapped", "add", number(1), cls="counter"), (0, number(1)))
    other.put("snapped", None)
    other.close()


def try_clocks(backend, tally):
    """The entries of a real call, beside what the client knows."""
    c, whole = backend.c, Object(b"text", {b"x": b"1"}, {b"k": b"2"})
    c.rados_get_last_version.restype = ctypes.c_uint64
    backend.put("env", whole)
    number_of = lambda name: struct.unpack("<Q", entry(backend, "env", name))[0]
    before, found, after = time.time(), number_of(b"time") / 1e9, time.time()
    tally.want("the time", before - 1 < found < after + 1, True)
    tally.want("it goes on", number_of(b"time") / 1e9 > found, True)
    drawn = {entry(backend, "env", b"random") for _ in range(20)}
    tally.want("random bytes", (len(drawn), {len(each) for each in drawn}), (20, {16}))
    tally.want("the entity", entry(backend, "env", b"entity"), b"client.%d" % backend.number())
    versions = []
    for _ in range(3):
        backend.call("env", "map_set", setter(b"k", b"3"), cls="helpers")
        made = c.rados_get_last_version(backend.io)
        versions.append(number_of(b"version"))
        tally.want("the version of a change", versions[-1], made)
    tally.want("it rises", versions == sorted(set(versions)), True)
    found, addresses = entry(backend, "env", b"address"), ctypes.c_char_p()
    tally.want("the client's addresses", c.rados_getaddrs(backend.pool.cluster, ctypes.byref(addresses)), 0)
    _, nonce, length, family = struct.unpack_from("<IIIH", found, 7)
    port, *parts = struct.unpack_from(">HBBBB", found, 21)
    text = b"%d.%d.%d.%d:%d/%d" % (*parts, port, nonce)
    tally.want("the address", (family, length, text), (2, 16, addresses.value))


def try_coded(tally):
    """In an erasure-coded pool xattrs work, and nothing else."""
    coded = osd.Cluster(sys.argv[3], "coded")
    coded.put("o", Object(b"text", {b"x": b"1"}))
    tally.want("erasure-coded: an xattr", coded.call("o", "getxattr", b"x", cls="helpers"), (1, b"1"))
    tally.want("erasure-coded: the length", coded.call("o", "stat", cls="helpers"), (4, b""))
    tally.want("erasure-coded: data", coded.call("o", "read", number(0) + number(4), cls="helpers"), (-95, b""))
    tally.want("erasure-coded: a key", coded.call("o", "add", number(1), cls="counter"), (-95, b""))
    tally.want("erasure-coded: the time", len(entry(coded, "o", b"time")), 8)
    tally.want("erasure-coded: no header", entry(coded, "o", b"header"), -61)
    data = setter(b"\0header", b"v")
    tally.want("erasure-coded: the header", coded.call("o", "setxattr", data, cls="helpers"), (-95, b""))
    coded.close()


def stood_in_header(backend):
    """Two functions: what an object's header is, and that sets it."""
    return (
        lambda oid: backend.objects[oid][2],
        lambda oid, header: backend.objects.update({oid: (*backend.objects[oid][:2], header)}),
    )


def header_by_rados(conf):
    """The same by Ceph's command: librados has no call in C."""

    def rados(*words):
        command = ["rados", "-c", conf, "-p", "bpf", *words]
        subprocess.run(command, stdout=subprocess.DEVNULL, stderr=subprocess.DEVNULL, timeout=120, check=True)

    def header_of(oid):
        with tempfile.NamedTemporaryFile() as file:
            rados("getomapheader", oid, file.name)
            return file.read()

    return header_of, lambda oid, header: rados("setomapheader", oid, header.decode())


def try_cluster(backend, tally, conf, user, keyring):
    try_rights(tally, backend, conf, user, keyring)
    try_operation(backend, tally)
    try_version(backend, tally)
    try_snapshot(backend, tally)
    try_coded(tally)
    try_clocks(backend, tally)


def main(words):
    images = osd.images_in(words[0])
    tally, backend = osd.Tally(f"installed classes, {words[1]}"), osd.open_from(words[1:])
    try_rows(backend, tally)
    names = b"helpers", b"count", b"third", b"environment"
    wanted = {name: sum_of(images[name]).encode() + b" ok 131072" for name in names}
    wanted[b"bpf"] = b"- ok -"
    if words[1] == "stand-in":
        cut = images[b"helpers"][:40]
        wanted.update({b"cut": sum_of(cut).encode() + b" refused 131072", b"none": b"- refused 131072"})
    try_classes(backend, tally, images, wanted)
    if words[1] == "stand-in":
        try_environment(backend, tally, *stood_in_header(backend))
        try_stood_in(backend, tally)
        try_stand_in(backend, tally, images, os.path.normpath(words[3]))
    else:
        try_environment(backend, tally, *header_by_rados(words[2]))
        try_cluster(backend, tally, *words[2:])
    backend.close()
    tally.end()


if __name__ == "__main__":
    main(sys.argv[1:])

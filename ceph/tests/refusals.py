#!/usr/bin/env python3
"""Each refusal and each trap, by numbers written by hand; a refused call leaves the object as it was.

    refusals.py IMAGES cluster CONF | stand-in PROGRAM FOLDER
"""

import os
import struct
import sys

import osd
from osd import load_request, radosbpf, request
from model import Object


def number(value):
    return struct.pack("<q", value)


def named(cls, method, data=b""):
    return request(cls, method, data, False)


def setter(name, value=b""):
    return bytes([len(name)]) + name + value


def entries(count):
    return {b"%04d" % n: b"v" for n in range(count)}


def frame(code, steps, output=b""):
    return struct.pack("<qQ", code, steps) + output


def rows(images):
    """A line each: what, the object and whether its classes are loaded, way, request, result, output."""
    helpers, lock = images[b"helpers"], images[b"lock"]
    text, bare = Object(b"text", {b"x": b"1", b"bpfx": b"3"}, {b"k": b"2"}), Object()
    cut, loop, wild, long = lock[:40], looping(), wild_image(), large_image()
    big, long_value, long_name = Object(b"", {b"n": bytes(4096)}), {b"n": bytes(4097)}, {b"n" * 65: b"v"}
    no_lines = b"image refused: it has more than 65536 bytes"
    over = lambda **parts: Object(parts.get("data", b""), parts.get("xattrs", {}), parts.get("keys", {}))
    h = lambda method, data=b"": named(b"helpers", method, data)
    return [
        # requests
        ("no bytes", text, "exec", b"", -22, b""),
        ("another version", text, "exec", b"\2" + h(b"stat")[1:], -22, b""),
        ("another source", text, "exec", b"\1\2" + h(b"stat")[2:], -22, b""),
        ("a name that passes the end", text, "exec", struct.pack("<BBI", 1, 0, 99) + b"helpers\4stat", -22, b""),
        ("a length of all ones", text, "exec", struct.pack("<BBI", 1, 0, 0xFFFFFFFF) + b"helpers\4stat", -22, b""),
        ("a method that passes the end", text, "exec", struct.pack("<BBI", 1, 0, 7) + b"helpers\5stat", -22, b""),
        ("a name with a NUL byte", text, "exec", named(b"hel\0ers", b"stat"), -22, b""),
        ("an empty name", text, "exec", named(b"", b"stat"), -22, b""),
        # classes and methods
        ("no such class", text, "exec", named(b"luck", b"lock"), -61, b""),
        ("no such class, absent object", None, "exec", named(b"lock", b"lock"), -61, b""),
        ("no such method", text, "exec", h(b"none"), -38, b""),
        ("no method's name", text, "exec", h(b""), -38, b""),
        ("a method's name in other bytes", text, "exec", h(b"\xff\xfe"), -38, b""),
        ("an image that is cut", text, "exec_sent", request(cut, b"lock", b"", True), -8, b""),
        ("a class that no rule accepts", text, "exec_sent", request(wild, b"f", b"", True), -8, b""),
        ("a loop", text, "exec_sent", request(loop, b"f", b"", True), -8, b""),
        ("no image", text, "exec_sent", request(b"", b"f", b"", True), -8, b""),
        ("a large image", text, "exec_sent", request(long, b"f", b"", True), -8, b""),
        ("an input that is too long", text, "exec", h(b"stat", b"1"), -90, b""),
        ("verify: accepted", text, "verify", lock, 0, b""),
        ("verify: cut", text, "verify", cut, 0, b"image refused after 0 methods: 1 Truncated"),
        ("verify: not safe", text, "verify", wild, 0, b"refused method 0 slot 0: 5 UnsetRead"),
        ("verify: a loop", text, "verify", loop, 0, b"refused method 0 slot 1: 1 Backward"),
        ("verify: none", text, "verify", b"", 0, b"image refused after 0 methods: 1 Truncated"),
        ("verify: a large image", text, "verify", long, 0, no_lines),
        # images beside the object that nobody verified: whoever may write it can put them there
        ("a stored image that is cut", text, "exec", named(b"cut", b"lock"), -8, b""),
        ("a stored loop", text, "exec", named(b"loop", b"f"), -8, b""),
        ("a stored image that is too long", text, "exec", named(b"long", b"f"), -8, b""),
        ("a stored image of no bytes", text, "exec", named(b"none", b"f"), -61, b""),
        # loading
        ("load: no bytes", text, "load", b"", -22, b""),
        ("load: no name", text, "load", load_request(b"", lock), -22, b""),
        ("load: a name of 65 bytes", text, "load", load_request(b"n" * 65, lock), -22, b""),
        ("load: a name with a blank", text, "load", load_request(b"a b", lock), -22, b""),
        ("load: a name with a NUL byte", text, "load", load_request(b"a\0b", lock), -22, b""),
        ("load: a name that is cut", text, "load", b"\5lock", -22, b""),
        ("load: an image that is cut", text, "load", load_request(b"bad", cut), -8, b""),
        ("load: a loop", text, "load", load_request(b"bad", loop), -8, b""),
        ("load: a large image", text, "load", load_request(b"bad", long), -8, b""),
        ("unload: no such class", text, "unload", load_request(b"none"), -61, b""),
        ("unload: absent object", None, "unload", load_request(b"lock"), -61, b""),
        ("unload: more bytes", text, "unload", load_request(b"lock", b"x"), -22, b""),
        ("unload: no bytes", text, "unload", b"", -22, b""),
        ("list: bytes", text, "list", b"x", -22, b""),
        ("no such method of the class bpf", text, "none", b"", -95, b""),
        # what no call may meet, and what it may have beside it
        ("65,537 bytes of data", over(data=bytes(65537)), "exec", h(b"stat"), 0, frame(65537, 2)),
        ("33 xattrs", over(xattrs=entries(33)), "exec", h(b"getxattr", b"0032"), 0, frame(1, 8, b"v")),
        ("1,025 keys", over(keys=entries(1025)), "exec", h(b"map_get", b"1024"), 0, frame(1, 8, b"v")),
        ("an xattr of 4,096 bytes", big, "exec", h(b"getxattr", b"n"), 0, frame(4096, 8, bytes(4096))),
        ("an xattr of 4,097 bytes", over(xattrs=long_value), "exec", h(b"getxattr", b"n"), -7, b""),
        ("another beside it", over(xattrs=long_value), "exec", h(b"getxattr", b"x"), 0, frame(-61, 4)),
        ("another beside a name of 65 bytes", over(xattrs=long_name), "exec", h(b"getxattr", b"x"), 0, frame(-61, 4)),
        ("a key of 4,097 bytes", over(keys=long_value), "exec", h(b"map_get", b"n"), -7, b""),
        ("that goes", over(keys=long_value), "exec", h(b"map_rm", b"n"), -7, b""),
        ("another beside it", over(keys=long_value), "exec", h(b"map_get", b"x"), 0, frame(-61, 4)),
        ("the keys from it on", over(keys=long_value), "exec", h(b"map_next"), -7, b""),
        ("the keys above it", over(keys=long_value), "exec", h(b"map_next", b"n"), 0, frame(-61, 4)),
        ("a key of 65 bytes", over(keys=long_name), "exec", h(b"map_next"), -7, b""),
        ("one before it", over(keys={b"a": b"", **long_name}), "exec", h(b"map_next"), 0, frame(1, 8, b"a")),
        ("another beside it", over(keys=long_name), "exec", h(b"map_get", b"x"), 0, frame(-61, 4)),
        # a removed xattr takes the whole object through the OSD's calls
        (
            "rmxattr beside 1,025 keys",
            over(xattrs={b"x": b"1"}, keys=entries(1025)),
            "exec",
            h(b"rmxattr", b"x"),
            -7,
            b"",
        ),
        ("rmxattr beside 32 other xattrs", over(xattrs={b"x": b"1", **entries(32)}), "exec", h(b"rmxattr", b"x"), -7, b""),
        (
            "rmxattr beside 65,537 bytes",
            over(data=bytes(65537), xattrs={b"x": b"1"}),
            "exec",
            h(b"rmxattr", b"x"),
            -27,
            b"",
        ),
        # changes in reads; codes of 64 bits in results of 32
        ("a change in query", text, "query", h(b"write", number(0) + b"other"), -30, b""),
        ("a change in see", text, "see", h(b"map_set", setter(b"new")), -30, b""),
        ("a write of what is there is a change too", text, "see", h(b"write", number(0) + b"text"), -30, b""),
        ("an xattr to what it is, in query", text, "query", h(b"setxattr", setter(b"x", b"1")), -30, b""),
        ("an xattr that comes and goes, in query", text, "query", h(b"scratch", b"new"), -30, b""),
        ("an xattr that comes and goes", text, "exec", h(b"scratch", b"new"), 0, frame(0, 9)),
        ("a refused change is none", text, "query", h(b"create", number(1)), 0, frame(-17, 3)),
        ("run: a code of 31 bits", text, "run", h(b"code", number(2**31 - 1)), 2**31 - 1, b""),
        ("run: a code of 32 bits", text, "run", h(b"code", number(2**31)), -75, b""),
        ("run: the least code", text, "run", h(b"code", number(-4095)), -4095, b""),
        ("run: a code below it", text, "run", h(b"code", number(-4096)), -75, b""),
        ("see: a code below it", text, "see", h(b"code", number(-(2**63))), -75, b""),
        ("run: EAGAIN, which the OSD doesn't answer", text, "run", h(b"code", number(-11)), -75, b""),
        ("see: EAGAIN", text, "see", h(b"code", number(-11)), -75, b""),
        ("run: EINPROGRESS, which the OSD doesn't answer", text, "run", h(b"code", number(-115)), -75, b""),
        ("see: EINPROGRESS", text, "see", h(b"code", number(-115)), -75, b""),
        ("exec: EINPROGRESS", text, "exec", h(b"code", number(-115)), 0, frame(-115, 2)),
        ("exec: any code", text, "exec", h(b"code", number(-(2**63))), 0, frame(-(2**63), 2)),
        ("run: a change and a code of 32 bits", text, "run", h(b"code_change", number(2**31)), -75, b""),
        # replies of changes, up to osd_max_write_op_reply_len
        ("exec: a reply of 65 bytes over a change", text, "exec", h(b"reply", number(49)), -105, b""),
        ("run: a reply of 65 bytes over a change", text, "run", h(b"reply", number(65)), -105, b""),
        ("run: on an absent object", None, "run_sent", request(helpers, b"reply", number(65), True), -105, b""),
        # xattrs' names
        ("set a name of the plug-in's", text, "exec", h(b"setxattr", setter(b"bpf.lock", b"x")), -13, b""),
        ("set another such name", text, "exec", h(b"setxattr", setter(b"bpf.", b"x")), -13, b""),
        ("a name with a NUL byte, behind other edits", text, "exec", h(b"mix", mixed(b"\0a")), -84, b""),
        ("a name that begins so, but for the dot", text, "see", h(b"getxattr", b"bpfx"), 1, b"3"),
        ("read one: there is none", text, "exec", h(b"getxattr", b"bpf.lock"), 0, frame(-61, 4)),
        ("remove one: there is none", text, "exec", h(b"rmxattr", b"bpf.lock"), 0, frame(-61, 2)),
        ("an xattr's name with a NUL byte", text, "exec", h(b"setxattr", setter(b"a\0b", b"x")), -84, b""),
        # reads of an absent object, which the OSD answers itself
        ("query: absent", None, "query_sent", request(helpers, b"code", number(5), True), -2, b""),
        ("see: absent", None, "see_sent", request(helpers, b"code", number(5), True), -2, b""),
        ("list: absent", None, "list", b"", -2, b""),
        ("verify: absent", None, "verify", lock, -2, b""),
        ("classes: absent", None, "classes", b"", -2, b""),
        ("stats: absent", None, "stats", b"", -2, b""),
        ("nothing", text, "nothing", b"", 0, b""),
        ("nothing: absent", None, "nothing", b"", 0, b""),
        ("exec: absent, and asked", None, "exec_sent", request(helpers, b"code", number(5), True), 0, frame(5, 2)),
        ("a bare object", bare, "exec", h(b"stat"), 0, frame(0, 2)),
    ]


def mixed(name):
    """The input of `mix` that writes, sets an xattr of that name, two bytes, and goes on."""
    return b"\1\1" + name + b"bcb\1" + bytes(24)


def image_of(code):
    """A class of one method `f`, which only reads."""
    return b"RCL1" + struct.pack("<HH", 1, 0) + b"\1f" + struct.pack("<BHHH", 1, 0, 0, len(code) // 8) + code


# Methods that would not end, and the line that says why they are refused. Each begins with
# `mov r0, 0` and ends with `exit`.
BACKWARD = b"refused method 0 slot %d: 1 Backward"
LOOPS = {
    "while true": ("0500ffff00000000", BACKWARD % 1),  # ja -1
    "count up": ("0700000001000000" "5500feffffffffff", BACKWARD % 2),  # add r0, 1; jne r0, -1, -2
    "wait for a byte": ("71a1ffff00000000" "1501feff00000000", BACKWARD % 2),  # ldxb r1, [r10-1]; jeq r1, 0, -2
    "a long way back": ("06000000feffffff", BACKWARD % 1),  # ja32 -2
    "call itself": ("85100000feffffff", b"refused method 0 slot 1: 4 LocalCall"),
}


def looping(code=LOOPS["while true"][0]):
    return image_of(bytes.fromhex("b700000000000000" + code + "9500000000000000"))


def large_image():
    """A class that no rule refuses, and of more than 65,536 bytes: two methods of 4,096 slots."""
    code = bytes.fromhex("b700000000000000") * 4095 + bytes.fromhex("9500000000000000")
    methods = [b"\1" + name + struct.pack("<BHHH", 1, 0, 0, 4096) + code for name in (b"f", b"g")]
    return b"RCL1" + struct.pack("<HH", 2, 0) + b"".join(methods)


def wild_image():
    """A method that answers a register that it never set."""
    return image_of(bytes.fromhex("9500000000000000"))


def try_loops(backend, tally):
    """No class that could keep an OSD busy is run or loaded."""
    backend.put("loop", Object(b"text"))
    for what, (code, line) in LOOPS.items():
        image = looping(code)
        tally.want(f"{what}: run", backend.call("loop", "run_sent", request(image, b"f", b"", True)), (-8, b""))
        tally.want(f"{what}: load", backend.call("loop", "load", load_request(b"f", image)), (-8, b""))
        result, found = backend.call("loop", "verify", image)
        tally.want(f"{what}: verify", (result, found), (0, line))


def try_rows(backend, tally, images):
    stored = {b"cut": images[b"lock"][:40], b"loop": looping(), b"long": large_image(), b"none": b""}
    for what, whole, way, data, result, output in rows(images):
        backend.put("row", whole, {**images, **stored} if "stored" in what else images)
        tally.want(what, backend.call("row", way, data), (result, output))
        tally.want(f"the object after: {what}", backend.get("row"), whole)


def try_changes(backend, tally, images):
    """What is changed, and that nothing else is."""
    whole = Object(b"text", {b"x": b"1", b"y": b"", b"z": b"3"}, {b"k": b"2", b"a\0b": b"\0"})
    h = lambda method, data=b"": named(b"helpers", method, data)
    done, replied, key = lambda steps: (0, frame(0, steps)), (0, frame(7, 10, bytes(48))), {b"a\0c": b"v"}
    backend.put("change", whole, images)
    steps = [
        ("an xattr goes", "exec", h(b"rmxattr", b"x"), done(2), lambda o: o.xattrs.pop(b"x")),
        ("an empty one too", "exec", h(b"rmxattr", b"y"), done(2), lambda o: o.xattrs.pop(b"y")),
        ("it isn't there again", "exec", h(b"rmxattr", b"y"), (0, frame(-61, 2)), lambda o: None),
        (
            "an empty xattr is set",
            "exec",
            h(b"setxattr", setter(b"e")),
            done(15),
            lambda o: o.xattrs.update({b"e": b""}),
        ),
        ("and read", "exec", h(b"getxattr", b"e"), done(8), lambda o: None),
        (
            "a key with a NUL byte is set",
            "exec",
            h(b"map_set", setter(b"a\0c", b"v")),
            done(15),
            lambda o: o.keys.update(key),
        ),
        ("one goes", "run", h(b"map_rm", b"a\0b"), (0, b""), lambda o: o.keys.pop(b"a\0b")),
        (
            "a reply of 64 bytes over a change",
            "exec",
            h(b"reply", number(48)),
            replied,
            lambda o: setattr(o, "data", number(48)),
        ),
        ("an unload", "unload", load_request(b"lock"), (0, b""), lambda o: None),
        ("the class is gone", "exec", named(b"lock", b"lock"), (-61, b""), lambda o: None),
        ("a load", "load", load_request(b"lock", images[b"lock"]), (0, b""), lambda o: None),
        ("the class is there", "exec", named(b"lock", b"unlock", b"me"), (0, frame(-61, 14)), lambda o: None),
    ]
    for what, way, data, wanted, change in steps:
        change(whole)
        tally.want(what, backend.call("change", way, data), wanted)
        tally.want(f"the object after: {what}", backend.get("change"), whole)
    # a class is the object's own: another has another of that name
    backend.put("other", whole, {b"lock": images[b"count"]})
    found = backend.call("other", "exec", named(b"lock", b"count"))
    tally.want("another object's class of that name", found[1][16:], struct.pack("<Q", 1))
    tally.want("this object's", backend.call("change", "exec", named(b"lock", b"count")), (-38, b""))
    listed = b"".join(b"%s %d\n" % (name, len(images[name])) for name in sorted(images))
    tally.want("list", backend.call("change", "list"), (0, listed))
    tally.want("remove", backend.call("change", "exec", h(b"remove")), done(2))
    tally.want("it is absent", backend.get("change"), None)


def try_stand_in(backend, tally, images):
    """What no client of a cluster brings about: other callers, settings and releases."""
    h = lambda method, data=b"": named(b"helpers", method, data)
    whole = Object(b"text", {b"x": b"1"}, {b"k": b"2"})
    most = (1 << 32) - 1
    for kind, caller, result in ((8, 0, -87), (8, most + 1, -87), (8, most, 0), (4, 7, -87), (8, (1 << 64) - 1, -87)):
        backend.put("o", whole, images)
        found = backend.call("o", "exec", h(b"who"), kind=kind, number=caller)
        output = b"" if result < 0 else frame(0, 7, struct.pack("<Q", caller))
        tally.want(f"caller {kind} {caller}", found, (result, output))
    for way in ("exec", "query", "run", "see"):
        place = number(0) + number(1)
        tally.want(f"{way} of data as the 2nd step", backend.call("o", way, h(b"read", place), step=1), (-114, b""))
    tally.want("the length as the 2nd step", backend.call("o", "see", h(b"stat"), step=1), (4, b""))
    tally.want("no data as the 2nd step", backend.call("o", "see", h(b"read", number(4) + number(1)), step=1), (0, b""))
    tally.want("an xattr is read as the 2nd step", backend.call("o", "see", h(b"getxattr", b"x"), step=1), (1, b"1"))
    tally.want("one goes as the 2nd step", backend.call("o", "exec", h(b"rmxattr", b"x"), step=1), (-114, b""))
    tally.want("one comes and goes as the 2nd", backend.call("o", "exec", h(b"scratch", b"n"), step=1), (-114, b""))
    tally.want("a key goes as the 2nd step", backend.call("o", "exec", h(b"map_rm", b"k"), step=1), (0, frame(0, 2)))
    backend.put("o", whole, images)
    for way, data in (("unload", load_request(b"lock")), ("load", load_request(b"new", images[b"lock"]))):
        tally.want(f"{way} as the 2nd step", backend.call("o", way, data, step=1), (-114, b""))
    found = backend.call("o", "exec", h(b"reply", number(49)), limit=65)
    tally.want("a reply of 65 bytes where the OSD allows it", found, (0, frame(7, 10, bytes(49))))
    os.environ["CEPH_VERSION"] = "17.2.0"
    other = osd.StandIn(*backend.words)
    other.put("o", whole, images)
    tally.want("an OSD of another release", other.call("o", "exec", h(b"stat")), (-95, b""))
    other.close()
    backend.put("o", whole, images, b"header")
    backend.call("o", "exec", h(b"rmxattr", b"x"))
    wanted = (Object(b"text", {}, {b"k": b"2"}), images, b"header")
    tally.want("what is kept where an xattr goes", backend.whole("o"), wanted)
    try_failing(backend, tally, images, whole)


def try_failing(backend, tally, images, whole):
    """Each of the OSD's calls, each growth of the library's memory and each `operator new` of the plug-in fails in
    turn: the call is refused, and nothing is changed.
    """
    h = lambda method, data=b"": named(b"helpers", method, data)
    asked = [(b"mix", b"\0\1ababcb\1" + bytes(24)), (b"rmxattr", b"x"), (b"create", number(0)), (b"remove", b"")]
    asked += [(b"map_rm", b"k"), (b"map_next", b""), (b"read", number(0) + number(4))]
    asked = [("exec", h(*each)) for each in asked]
    asked += [("unload", load_request(b"lock")), ("load", load_request(b"n", images[b"lock"])), ("list", b"")]
    asked += [
        ("verify", images[b"lock"][:40]),
        ("query", h(b"stat")),
        ("run_sent", request(images[b"lock"], b"lock", b"me", True)),
    ]
    asked += [("classes", b""), ("stats", b"")]
    asked = [(whole, *each, "bpf") for each in asked]
    asked += [(Object(bytes(65537)), "unload", load_request(b"lock"), "bpf"), (whole, "count", b"", "count")]
    asked += [(whole, "header", b"new", "environment"), (whole, "same", b"", "environment")]
    asked.append((None, "made", b"", "environment"))
    for whole, way, data, cls in asked:
        call = lambda **failing: backend.call("o", way, data, cls=cls, **failing)
        kept = whole and (whole, images, b"header")
        for _ in range(2):  # the first one may take memory that stays
            backend.put("o", whole, images, b"header")
            tally.want(f"{way} {data[:30]}", call()[0] >= 0, True)
        for new in range(1, backend.news + 1):
            backend.put("o", whole, images, b"header")
            what = f"{way} {data[:30]}, operator new {new} fails"
            tally.want(what, (call(new=new)[0], backend.whole("o")), (-12, kept))
        backend.put("o", whole, images, b"header")
        call()
        for growth in range(1, backend.growths + 1):
            backend.put("o", whole, images, b"header")
            result, _ = call(growth=growth)
            what = f"{way} {data[:30]}, growth {growth} of the library's memory fails"
            tally.want(what, (result, backend.whole("o")), (-12, kept))
        backend.put("o", whole, images, b"header")
        call()
        for failing in range(1, backend.osd_calls + 1):
            backend.put("o", whole, images, b"header")
            result, _ = call(failing=failing)
            what = f"{way} {data[:30]}, the OSD's call {failing} fails"
            tally.want(what, (result < 0, backend.whole("o")), (True, kept))


def try_cluster(backend, tally, images):
    """The traps of librados and the OSD."""
    h = lambda method, data=b"": named(b"helpers", method, data)
    whole = Object(b"text", {b"x": b"1"}, {b"k": b"2"})
    backend.put("o", whole, images)
    caller = struct.pack("<Q", backend.number())
    tally.want("the caller is the session's number", backend.call("o", "exec", h(b"who")), (0, frame(0, 7, caller)))
    found = backend.plain("o", "exec", h(b"reply", number(8)))
    tally.want("a change's output doesn't come without RETURNVEC", found, (0, b""))
    tally.want("nor its code, if it is above 0", backend.plain("o", "run", h(b"reply", number(7))), (0, b""))
    tally.want("with it both come", backend.call("o", "run", h(b"reply", number(9))), (7, bytes(9)))
    backend.put("o", whole, images)
    tally.want("a code below 0 comes", backend.plain("o", "run", h(b"code", number(-16))), (-16, b""))
    tally.want("a read's output comes", backend.plain("o", "see", h(b"read", number(0) + number(4)))[1], b"text")
    line = b"image refused after 0 methods: 1 Truncated"
    tally.want("verify's line comes", backend.plain("o", "verify", b""), (len(line), line))
    done, results = backend.steps("o", [("exec", h(b"map_set", setter(b"n"))), ("exec", h(b"map_set", setter(b"m")))])
    whole.keys.update({b"n": b"", b"m": b""})
    tally.want("a second call in an operation", (done, backend.get("o")), (0, whole))
    tally.want("its results", [result for result, _ in results], [0, 0])
    done, results = backend.steps("o", [("exec", h(b"map_set", setter(b"n"))), ("list", b"")])
    whole.keys[b"n"] = b""
    tally.want("a call and a list", (done, backend.get("o")), (0, whole))
    # By plain librados: an xattr that a method removed is gone.
    backend.call("o", "exec", h(b"rmxattr", b"x"))
    tally.want("rados getxattr", backend.c.rados_getxattr(backend.io, b"o", b"x", b"", 0), -61)
    second = osd.Cluster(os.environ["CONF"])
    tally.want("another session is another caller", second.number() != backend.number(), True)
    second.close()


def main(words):
    images = osd.images_in(words[0])
    tally, backend = osd.Tally(f"refusals and traps, {words[1]}"), osd.open_from(words[1:])
    try_rows(backend, tally, images)
    try_changes(backend, tally, images)
    try_loops(backend, tally)
    if words[1] == "cluster":
        os.environ["CONF"] = words[2]
        try_cluster(backend, tally, images)
    else:
        try_stand_in(backend, tally, images)
    backend.close()
    tally.end()


if __name__ == "__main__":
    main(sys.argv[1:])

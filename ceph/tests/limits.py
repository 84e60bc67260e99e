#!/usr/bin/env python3
"""What lies past the limits of an object, how many classes and images it may have beside it, and which steps may
stand before a call in its operation.

    limits.py IMAGES cluster CONF | stand-in PROGRAM FOLDER
"""

import struct
import sys

import osd
from model import Object
from osd import load_request, request

BIG = 4 << 20  # bytes of data: as many as RADOS's own clients put into an object
ME, YOU = b"me", b"you"


def frame(code, steps, output=b""):
    return struct.pack("<qQ", code, steps) + output


def number(value):
    return struct.pack("<Q", value)


def named(cls, method, data=b""):
    return request(cls, method, data, False)


def setter(name, value):
    return bytes([len(name)]) + name + value


def image_of(*methods):
    """A class of methods that answer 0, each by its name and how many slots it has."""
    image = b"RCL1" + struct.pack("<HH", len(methods), 0)
    for name, slots in methods:
        code = bytes.fromhex("b700000000000000") * (slots - 1) + bytes.fromhex("9500000000000000")
        image += bytes([len(name)]) + name + struct.pack("<BHHH", 1, 0, 0, slots) + code
    return image


def try_big(backend, tally, images):
    """An object of 4 MiB: calls are answered as on any object."""
    whole = Object(b"0123456789abcdef" * (BIG // 16), {b"x": b"1"}, {b"k": b"2"})
    h = lambda method, data=b"": ("exec", named(b"helpers", method, data))
    lock = lambda method, owner=b"": ("exec", named(b"lock", method, owner))
    done = lambda steps, code=0, output=b"": (0, frame(code, steps, output))
    too_long = (-27, b"")
    steps = [
        ("lock", *lock(b"lock", ME), done(22)),
        ("lock by another", *lock(b"lock", YOU), done(19, -16)),
        ("unlock", *lock(b"unlock", ME), done(46)),
        ("lock once more", *lock(b"lock", YOU), done(20)),
        ("break", *lock(b"break"), done(17)),
        ("an xattr is read", *h(b"getxattr", b"x"), done(8, 1, b"1")),
        ("a key is read", *h(b"map_get", b"k"), done(8, 1, b"2")),
        ("a key is set", *h(b"map_set", setter(b"new", b"v")), done(15)),
        ("a key goes", *h(b"map_rm", b"new"), done(2)),
        ("it is there", *h(b"create", number(1)), done(3, -17)),
        ("stat", *h(b"stat"), done(2, BIG)),
        ("read", *h(b"read", number(BIG - 3) + number(4)), done(13, 3, b"def")),
        ("write", *h(b"write", number(0) + b"text"), done(8, 4)),
        ("it is read", *h(b"read", number(1) + number(4)), done(13, 4, b"ext4")),
        ("truncate", *h(b"truncate", number(BIG - 1)), done(3)),
        ("an xattr goes, which takes all of the object", *h(b"rmxattr", b"x"), too_long),
        ("a load", "load", load_request(b"f", image_of((b"f", 2))), (0, b"")),
        ("it is called", "exec", named(b"f", b"f"), done(2)),
        ("an unload", "unload", load_request(b"f"), (0, b"")),
        ("it is gone", "exec", named(b"f", b"f"), (-61, b"")),
        ("a 2nd unload", "unload", load_request(b"f"), (-61, b"")),
        ("the list", "list", b"", (0, b"".join(b"%s %d\n" % each for each in sizes(images)))),
        ("a load again", "load", load_request(b"f", image_of((b"f", 2))), (0, b"")),
        ("it is called again", "exec", named(b"f", b"f"), done(2)),
    ]
    backend.put("big", whole, images)
    for what, way, data, wanted in steps:
        tally.want(f"4 MiB: {what}", backend.call("big", way, data), wanted)
    for count in (1, 2, 3):
        result, output = backend.call("big", "exec", named(b"count", b"count"))
        found = result, output[:8], output[16:]
        tally.want(f"4 MiB: the counter's call {count}", found, (0, number(count), number(count)))
    whole.data = b"text" + whole.data[4:-1]
    whole.xattrs[b"lock"], whole.keys[b"n"] = b"", number(3)
    tally.want("the object of 4 MiB", backend.get("big"), whole)
    tally.want("it is removed", backend.call("big", "exec", named(b"helpers", b"remove")), done(2))
    tally.want("it is absent", backend.get("big"), None)


def try_greatest(backend, tally, images):
    """Data up to osd_max_object_size, and what lies past the places that the OSD's calls have."""
    end, far = 1000, 1 << 32
    call = lambda method, data=b"", **words: backend.call("most", "exec", named(b"helpers", method, data), **words)
    backend.put("most", Object(b"text"), images)
    for what, method, place, steps, code in (
        ("a write up to it", b"write", end - 4, 8, 4),
        ("a write past it", b"write", end - 3, 8, -27),
        ("a write far past it", b"write", far, 8, -27),
        ("a length past it", b"truncate", end + 1, 3, -27),
        ("a length past it where a write may end", b"truncate", 2**31, 3, -27),
    ):
        data = number(place) + (b"abcd" if method == b"write" else b"")
        tally.want(what, call(method, data, most=end), (0, frame(code, steps)))
    tally.want("a write past 31 bits", call(b"write", number(2**31 - 3) + b"abcd", most=far), (0, frame(-27, 8)))
    place = number(2**31) + number(4)
    tally.want("data past 31 bits", call(b"read", place, size=far), (-27, b""))
    tally.want("the length of it", call(b"stat", size=far), (0, frame(far, 2)))
    backend.put("most", Object(b"t" * 2000), images)
    tally.want("a read past the setting", call(b"read", number(1999) + number(9), most=end)[1][16:], b"t")
    tally.want("a write in more than it", call(b"write", number(0) + b"abcd", most=end), (0, frame(4, 8)))


def sizes(images):
    return [(name, len(images[name])) for name in sorted(images)]


def try_past(backend, tally, images):
    """An object past one limit: a class is still unloaded, and the object is the same."""
    many = lambda count: {b"%04d" % n: b"v" for n in range(count)}
    for what, whole in (
        ("65,537 bytes", Object(bytes(65537))),
        ("33 xattrs", Object(b"", many(33))),
        ("1,025 keys", Object(b"", {}, many(1025))),
        ("an xattr of 4,097 bytes", Object(b"", {b"n": bytes(4097)})),
        ("a key of 65 bytes", Object(b"", {}, {b"n" * 65: b"v"})),
    ):
        backend.put("past", whole, images)
        tally.want(f"{what}: unload", backend.call("past", "unload", load_request(b"lock")), (0, b""))
        rest = [b"%s %d\n" % each for each in sizes(images) if each[0] != b"lock"]
        tally.want(f"{what}: the list", backend.call("past", "list"), (0, b"".join(rest)))
        tally.want(f"{what}: the object", backend.get("past"), whole)


def try_classes(backend, tally, images):
    """16 classes beside an object, and no 17th; one of them can be loaded anew."""
    load = lambda name, image: backend.call("classes", "load", load_request(name, image))
    backend.put("classes", None)
    for n in range(16):
        tally.want(f"load {n}", load(b"c%d" % n, images[b"lock"]), (0, b""))
    tally.want("a 17th class", load(b"c16", images[b"lock"]), (-82, b""))
    tally.want("the 1st again", load(b"c0", images[b"count"]), (0, b""))
    tally.want("the object that load made", backend.get("classes"), Object())
    tally.want("unload", backend.call("classes", "unload", load_request(b"c5")), (0, b""))
    tally.want("a 16th again", load(b"c16", images[b"lock"]), (0, b""))
    # An object that can't be made again keeps the name of a class that was unloaded.
    small = image_of((b"f", 2))
    backend.put("classes", Object(bytes(65537)), {b"c%d" % n: small for n in range(16)})
    tally.want("unload beside much data", backend.call("classes", "unload", load_request(b"c5")), (0, b""))
    tally.want("another name is a 17th", load(b"c16", small), (-82, b""))
    tally.want("the same name isn't", load(b"c5", small), (0, b""))


def try_images(backend, tally):
    """The images beside an object have at most 65,536 bytes together: 32,785 and 32,751."""
    one, other, small = image_of((b"f", 4096)), image_of((b"f" * 7, 4091)), image_of((b"f", 2))
    more, most = image_of((b"f" * 8, 4091)), image_of((b"ffff", 4094), (b"gggg", 4094))
    lengths = [len(image) for image in (one, other, small, more, most)]
    tally.want("lengths of the images", lengths, [32785, 32751, 33, 32752, 65536])
    load = lambda name, image: backend.call("images", "load", load_request(name, image))
    full = (-28, b"")
    backend.put("images", None)
    steps = [
        ("the 1st", b"one", one, (0, b"")),
        ("a byte too many", b"other", more, full),
        ("65,536 bytes together", b"other", other, (0, b"")),
        ("the smallest one", b"small", small, full),
        ("the 1st again", b"one", one, (0, b"")),
        ("a longer 2nd", b"other", more, full),
        ("a shorter 2nd", b"other", small, (0, b"")),
        ("a 3rd", b"small", small, (0, b"")),
        ("one as long as all may be", b"most", most, full),
    ]
    for what, name, image, wanted in steps:
        tally.want(f"images: {what}", load(name, image), wanted)
    listed = b"one 32785\nother 33\nsmall 33\n"
    tally.want("images: the list", backend.call("images", "list"), (0, listed))
    backend.put("images", None)
    tally.want("images: 65,536 bytes alone", load(b"most", most), (0, b""))
    tally.want("images: another beside them", load(b"small", small), full)
    backend.put("images", Object(), {b"one": one, b"most": most})
    tally.want("images: too many bytes already", load(b"small", small), full)
    tally.want("images: a call beside them", backend.call("images", "exec", named(b"one", b"f")), (0, frame(0, 4096)))
    tally.want("images: an unload beside them", backend.call("images", "unload", load_request(b"one")), (0, b""))


def try_steps(backend, tally, images):
    """What may stand before a call or a load in its operation, and behind it."""
    import ctypes

    c, oid, kept = backend.c, b"steps", Object(b"text", {b"x": b"1"}, {b"k": b"2"})

    def operate(*steps):
        """One operation of steps: a function that adds it to a read operation, or a method and its request."""
        op = ctypes.c_void_p(c.rados_create_read_op())
        result, used, out = ctypes.c_int(), ctypes.c_size_t(), ctypes.create_string_buffer(4096)
        for step in steps:
            if callable(step):
                step(op)
                continue
            size, places = ctypes.c_size_t(len(step[1])), (ctypes.byref(used), ctypes.byref(result))
            c.rados_read_op_exec_user_buf(op, b"bpf", *step, size, out, ctypes.c_size_t(4096), *places)
        done = c.rados_read_op_operate(op, backend.io, oid, osd.radosbpf.RETURNVEC)
        c.rados_release_read_op(op)
        return done

    there = c.rados_read_op_assert_exists
    is_one = lambda op: c.rados_read_op_cmpxattr(op, b"x", 1, b"1", ctypes.c_size_t(1))
    is_two = lambda op: c.rados_read_op_cmpxattr(op, b"x", 1, b"2", ctypes.c_size_t(1))
    adds = (b"exec", named(b"count", b"count"))
    counted = Object(b"text", {b"x": b"1"}, {b"k": b"2", b"n": number(1)})
    loads = [(b"load", load_request(b"c%d" % n, images[b"lock"])) for n in range(17)]
    rows = [
        # (Ceph answers an operation whose last step is a comparison that holds with 1)
        ("a guard that holds, behind a call", (adds, is_one), 1, counted),
        ("a guard that fails, behind a call", (adds, is_two), -125, kept),
        ("the object is there, behind a call", (adds, there), 0, counted),
        ("a guard before a call", (is_one, adds), 0, counted),
        ("the object is there, before a call", (there, adds), 0, counted),
        ("17 loads", loads, -114, kept),
        ("2 loads", loads[:2], -114, kept),
        ("a load behind a guard", (there, loads[0]), -114, kept),
        ("a guard that fails, behind a load", (loads[0], is_two), -125, kept),
    ]
    for what, steps, result, after in rows:
        backend.put("steps", kept, images)
        listed = backend.call("steps", "list")
        tally.want(what, operate(*steps), result)
        tally.want(f"the object after: {what}", backend.get("steps"), after)
        tally.want(f"its classes after: {what}", backend.call("steps", "list"), listed)


def try_coded(tally, images):
    """In an erasure-coded pool xattrs work, and nothing else."""
    backend = osd.Cluster(sys.argv[3], "coded")
    whole = Object(b"text", {b"x": b"1"})
    backend.put("o", whole, images)
    rows = [
        ("lock", "exec", named(b"lock", b"lock", ME), (0, frame(0, 22))),
        ("lock by another", "exec", named(b"lock", b"lock", YOU), (0, frame(-16, 19))),
        ("an xattr is read", "query", named(b"helpers", b"getxattr", b"x"), (0, frame(1, 8, b"1"))),
        ("data is read", "query", named(b"helpers", b"read", number(0) + number(4)), (-95, b"")),
        ("its length", "query", named(b"helpers", b"stat"), (0, frame(4, 2))),
        ("data is written", "exec", named(b"helpers", b"write", number(0) + b"abcd"), (-95, b"")),
        ("a key is set", "exec", named(b"count", b"count"), (-95, b"")),
        ("an xattr goes", "exec", named(b"helpers", b"rmxattr", b"x"), (-95, b"")),
        ("unload", "unload", load_request(b"lock"), (0, b"")),
        ("it is gone", "exec", named(b"lock", b"break"), (-61, b"")),
        ("load", "load", load_request(b"lock", images[b"lock"]), (0, b"")),
        ("break", "exec", named(b"lock", b"break"), (0, frame(0, 17))),
    ]
    for what, way, data, wanted in rows:
        tally.want(f"erasure-coded: {what}", backend.call("o", way, data), wanted)
    whole.xattrs[b"lock"] = b""
    tally.want("erasure-coded: the object", backend.get("o"), whole)
    backend.close()


def main(words):
    images = osd.images_in(words[0])
    tally, backend = osd.Tally(f"limits and steps, {words[1]}"), osd.open_from(words[1:])
    try_big(backend, tally, images)
    try_past(backend, tally, images)
    try_classes(backend, tally, images)
    try_images(backend, tally)
    if words[1] == "stand-in":
        try_greatest(backend, tally, images)
    if words[1] == "cluster":
        try_steps(backend, tally, images)
        try_coded(tally, images)
    backend.close()
    tally.end()


if __name__ == "__main__":
    main(sys.argv[1:])

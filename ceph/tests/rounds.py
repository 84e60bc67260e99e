#!/usr/bin/env python3
"""Calls on objects of any size: what each asks the OSD for, round by round, what it answers, and where it is refused.

    rounds.py IMAGES cluster CONF | stand-in PROGRAM FOLDER

The methods are made here, of helpers in a row, and sent.
"""

import struct
import sys

import expected
import osd
import parts
from model import Object
from osd import request

MOV, MOV_R, ADD, ADD_R, AND, JGT, STORE, CALL, EXIT, WIDE = 0xB7, 0xBF, 0x07, 0x0F, 0x57, 0x25, 0x62, 0x85, 0x95, 0x18
NAME, LAST, VALUE = -72, -144, -512  # places on the stack: a name, the name that was found last, a value of 360 bytes
HELPERS = {"get": {"xattrs": 6, "keys": 9}, "set": {"xattrs": 7, "keys": 10}, "rm": {"xattrs": 8, "keys": 11}}
NEXT = {"xattrs": 18, "keys": 12}


def slot(opcode, dst=0, src=0, offset=0, imm=0):
    return struct.pack("<BBhi", opcode, dst | src << 4, offset, imm)


def at(register, place):
    return slot(MOV_R, register, 10) + slot(ADD, register, 0, 0, place)


def number(register, value):
    low, high = (struct.unpack("<i", struct.pack("<I", value >> shift & 0xFFFFFFFF))[0] for shift in (0, 32))
    return slot(WIDE, register, 0, 0, low) + slot(0, 0, 0, 0, high)


def name_of(name):
    """A name on the stack, for the first two registers."""
    words = struct.unpack(f"<{-(-len(name) // 4)}i", name.ljust(-(-len(name) // 4) * 4, b"\0"))
    stored = b"".join(slot(STORE, 10, 0, NAME + 4 * n, word) for n, word in enumerate(words))
    return stored + at(1, NAME) + slot(MOV, 2, 0, 0, len(name))


def call(helper):
    """Its answer is added to the method's code."""
    return slot(CALL, 0, 0, 0, helper) + slot(ADD_R, 9, 0)


def code_of(kind, *words):
    """The code of one helper."""
    if kind == "get":
        return name_of(words[1]) + at(3, VALUE) + slot(MOV, 4, 0, 0, 360) + call(HELPERS[kind][words[0]])
    if kind == "set":
        return name_of(words[1]) + at(3, VALUE) + slot(MOV, 4, 0, 0, words[2]) + call(HELPERS[kind][words[0]])
    if kind == "rm":
        return name_of(words[1]) + call(HELPERS[kind][words[0]])
    if kind in ("next", "above"):  # from the name that was found last, or from this one
        start = at(1, LAST) + slot(MOV_R, 2, 8) if kind == "next" else name_of(words[1])
        found = call(NEXT[words[0]]) + slot(JGT, 0, 0, 1, 64) + slot(MOV_R, 8, 0)
        return start + at(3, LAST) + slot(MOV, 4, 0, 0, 64) + found
    if kind in ("read", "write"):
        place, length = words
        return number(1, place) + at(2, VALUE) + slot(MOV, 3, 0, 0, length) + call(2 if kind == "read" else 3)
    if kind == "truncate":
        return number(1, words[0]) + call(4)
    start = slot(MOV, 1) if kind == "create" else b""
    return start + call({"stat": 1, "remove": 5, "create": 14}[kind])


def image_of(operations):
    """A class of one method `f`, whose code is the sum of what its helpers answer, without its sign."""
    code = slot(MOV, 8) + slot(MOV, 9) + b"".join(code_of(*each) for each in operations)
    code += slot(MOV_R, 0, 9) + slot(AND, 0, 0, 0, 0x7FFFFFFF) + slot(EXIT)
    assert len(code) <= 8 * 4096, len(code)
    return b"RCL3" + struct.pack("<HH", 1, 0) + b"\1f" + struct.pack("<BHHH", 3, 0, 0, len(code) // 8) + code + bytes(2)


def names(count, form=b"%04d"):
    return [form % n for n in range(count)]


def entries(count, value=b"v", form=b"%04d"):
    return dict.fromkeys(names(count, form), value)


def of_keys(keys, data=b"text"):
    return Object(data, {b"x": b"1"}, keys)


def gets(count, step=1, kind="keys"):
    return [("get", kind, b"%04d" % (n * step)) for n in range(count)]


def walk(count, kind="keys"):
    return [("next", kind)] * count


def blocks(numbers):
    """Reads of a byte in each of these blocks."""
    return [("read", n * 4096, 1) for n in numbers]


def pages(*lines):
    """Lines of pages: from above which key, and how many."""
    return [f"keys {(b'%04d' % above).hex() if above >= 0 else '-'} {most}" for above, most in lines]


def reads(*lines):
    return [f"read {place} {length}" for place, length in lines]


REMOVED_TWICE = [("remove",), ("create",), ("set", "xattrs", b"n", 3), ("remove",), ("create",), ("write", 0, 4)]
LARGE = bytes(range(256)) * (4 << 12)  # 4 MiB
ALL = ["keys - 1024"]


def key(text):
    return f"key {text.hex()}"


def rows():
    """A line each: what, the object, helpers, the sum of their answers or a refusal, and what the OSD is asked for."""
    some = of_keys({b"a": b"1", b"b\0": b"22", b"c": b"333"})
    keyed, long = [key(each) for each in names(25)], {b"0005": bytes(4097)}
    last = len(LARGE) - 4096
    return [
        # of keys
        ("a key", of_keys(entries(1025)), gets(1), 1, keyed[:1]),
        ("a key that isn't there", some, [("get", "keys", b"b")], -61, [key(b"b")]),
        (
            "one that isn't there, and the next name",
            some,
            [("get", "keys", b"b"), ("get", "keys", b"b\0")],
            2 - 61,
            [key(b"b"), key(b"b\0")],
        ),
        (
            "one that isn't there, and the least above it",
            some,
            [("get", "keys", b"b"), ("above", "keys", b"b")],
            2 - 61,
            [key(b"b"), "keys 62 64"],
        ),
        ("a key twice", some, [("get", "keys", b"a")] * 2, 2, [key(b"a")]),
        ("a key that is set", some, [("set", "keys", b"n", 4), ("get", "keys", b"n")], 4, []),
        ("a key that goes", some, [("rm", "keys", b"a"), ("get", "keys", b"a")], -61, [key(b"a")]),
        ("15 keys", of_keys(entries(1025)), gets(15), 15, keyed[:5] + ALL + keyed[5:15]),
        ("16 keys", of_keys(entries(1025)), gets(16), (-7, "rounds"), None),
        ("200 keys of 1,024", of_keys(entries(1024)), gets(200, 5), 200, keyed[:25:5] + ALL),
        ("16 keys of few, one of them long", of_keys({**entries(20), b"z": bytes(4097)}), gets(16), (-7, "rounds"), None),
        # of pages
        ("16 keys in their order", of_keys(entries(16)), walk(17), 64 - 61, pages((-1, 16))),
        ("17", of_keys(entries(17)), walk(18), 68 - 61, pages((-1, 16), (15, 64))),
        ("the first of many", of_keys(entries(3000)), walk(1), 4, pages((-1, 16))),
        (
            "300 of 3,000",
            of_keys(entries(3000)),
            walk(300),
            1200,
            pages((-1, 16), (15, 64), (79, 256)),
        ),
        ("10 behind the middle", of_keys(entries(3000)), [("above", "keys", b"1500"), *walk(9)], 40, pages((1500, 16))),
        ("keys that go, in their order", of_keys(entries(40)), trim(20), 80, pages((-1, 16), (15, 64))),
        ("a page up to a long key", of_keys({**entries(9), **long}), walk(5), 20, pages((-1, 16))),
        ("that key", of_keys({**entries(9), **long}), walk(6), (-7, "value"), None),
        ("that key by its name", of_keys({**entries(9), **long}), gets(6), (-7, "value"), None),
        ("a long name", of_keys({**entries(3), b"0001" + b"n" * 61: b"v"}), walk(3), (-7, "name"), None),
        (
            "jumps in many",
            of_keys(entries(3000)),
            [("above", "keys", b"%04d" % n) for n in range(2000, 0, -250)],
            32,
            pages(*[(n, 16) for n in range(2000, 750, -250)]) + ALL + pages(*[(n, 16) for n in range(750, 0, -250)]),
        ),
        (
            "what no key is above, and the first",
            of_keys(entries(3)),
            [("above", "keys", b"9"), ("next", "keys")],
            4 - 61,
            ["keys 39 16", "keys - 16"],
        ),
        # of xattrs
        ("32 xattrs", Object(b"", entries(32)), walk(33, "xattrs"), 128 - 61, []),
        ("32 of 40", Object(b"", entries(40)), walk(32, "xattrs"), 128, []),
        ("33 of 40", Object(b"", entries(40)), walk(33, "xattrs"), (-7, "names"), None),
        ("two of 1,000", Object(b"", entries(1000)), gets(2, 500, "xattrs"), 2, []),
        ("a long one", Object(b"", {b"0000": bytes(4097)}), gets(1, 1, "xattrs"), (-7, "value"), None),
        ("a 33rd is set", Object(b"", entries(32)), [("set", "xattrs", b"new", 3)], 0, []),
        ("33 are set", Object(b""), [("set", "xattrs", each, 3) for each in names(33)], (-7, "names"), None),
        ("a 33rd of an absent object", None, [("set", "xattrs", each, 3) for each in names(33)], (-7, "names"), None),
        # of data
        ("a byte of 4 MiB", of_keys({}, LARGE), [("read", 20481, 1)], 1, reads((20480, 4096))),
        ("two blocks", of_keys({}, LARGE), [("read", 8190, 4)], 4, reads((4096, 8192))),
        ("the last bytes", of_keys({}, LARGE[:-9]), [("read", last + 4076, 40)], 11, reads((last, 4087))),
        ("the end", of_keys({}, LARGE), [("read", len(LARGE), 40)], 0, []),
        (
            "one block after the other",
            of_keys({}, LARGE),
            blocks(range(20)),
            20,
            reads((0, 4096), (4096, 65536), (17 * 4096, 262144)),
        ),
        (
            "65,536 bytes from their end",
            of_keys({}, LARGE[:65536]),
            blocks(range(15, -1, -1)),
            16,
            reads((61440, 4096), (0, 65536)),
        ),
        (
            "blocks of 4 MiB from their end",
            of_keys({}, LARGE),
            blocks(range(900, 800, -7)),
            15,
            reads((900 * 4096, 4096), *[(n * 4096, 7 * 4096) for n in range(893, 800, -7)]),
        ),
        ("16 reads", of_keys({}, LARGE), blocks(range(960, 0, -60)), (-7, "rounds"), None),
        ("over 4 MiB", of_keys({}, 2 * LARGE), blocks(range(0, 1280, 64)), (-7, "data"), None),
        ("a write", of_keys({}, LARGE), [("write", 5000, 10), ("write", len(LARGE), 10)], 20, []),
        ("a write that is read", of_keys({}, LARGE), [("write", 5000, 10), ("read", 5000, 4)], 14, reads((4096, 4096))),
        ("past a cut", of_keys({}, LARGE), [("truncate", 4096), ("truncate", 8192), ("read", 4096, 9)], 9, []),
        ("what is removed twice", of_keys(entries(3)), REMOVED_TWICE, 4, []),
        ("what is removed and made", of_keys(entries(2000), LARGE), [("remove",), ("create",), *gets(9)], -549, []),
    ]


def trim(count):
    """The first keys go, each when it is found."""
    return [each for n in range(count) for each in (("next", "keys"), ("rm", "keys", b"%04d" % n))]


def sent(operations):
    return request(image_of(operations), b"f", b"", True)


def method_of(image):
    return expected.model.methods_of(image)[b"f"]


def asked_for(backend):
    """What the last call asked for behind presence, size and xattrs, before its changes."""
    return [line for line in backend.trace if line.split()[0] in ("read", "key", "keys")]


def try_row(backend, tally, what, whole, operations, wanted, lines):
    image = image_of(operations)
    backend.put("o", whole)
    result, output = backend.call("o", "exec_sent", request(image, b"f", b"", True))
    method = method_of(image)
    if isinstance(wanted, tuple):
        tally.want(what, result, wanted[0])
        tally.want(f"the object after: {what}", backend.get("o"), whole)
        if isinstance(backend, osd.StandIn):
            line = f"5 bpf.exec_sent image.f: refused {wanted[0]}: {parts.WHY[wanted[1]]}"
            tally.want(f"the log of: {what}", backend.log, [line])
        return
    tally.want(what, (result, output[:8]), (0, struct.pack("<q", wanted & 0x7FFFFFFF)))
    after = expected.model.fold(parts.call(method, whole, backend.number(), b"")[0].edits, whole)
    tally.want(f"the object after: {what}", backend.get("o"), after)
    if isinstance(backend, osd.StandIn):
        tally.want(f"what is asked for: {what}", asked_for(backend), lines)


def try_beside(backend, tally):
    """A counter, a lock and a write ask for the same beside few keys and much else."""
    found = {}
    for count in (0, 1000, 100000):
        backend.put("beside", Object(b"text", {b"x": b"1"}, entries(count, form=b"%06d")))
        for cls, method, data in (
            ("count", "count", b""),
            ("helpers", "map_set", b"\1ab"),
            ("helpers", "map_rm", b"a"),
            ("helpers", "map_next", b""),
            ("lock.2", "lock", b"me"),
        ):
            result, _ = backend.call("beside", method, data, cls=cls)
            lines = [each for each in backend.trace] if isinstance(backend, osd.StandIn) else []
            if method == "map_next":
                result = result > 0
            if count:
                tally.want(f"{cls} {method} beside {count} keys", (result, lines), found[cls, method])
            found.setdefault((cls, method), (result, lines))
    backend.put("beside", None)


def random_operation(chance, whole):
    kind = chance.choice(["keys", "keys", "xattrs"])
    there = sorted(getattr(whole, kind)) if whole else []
    name = chance.choice(there) if there and chance.random() < 0.7 else b"%04d" % chance.randrange(3000)
    name = (name + chance.choice([b"", b"", b"", b"\0", b"!"]))[:64]
    size = len(whole.data) if whole else 0
    place = chance.choice([chance.randrange(size + 1), chance.randrange(3 * size + 1), size, max(size - 5, 0)])
    return chance.choice(
        [
            ("get", kind, name),
            ("get", kind, name),
            # (an OSD has no xattr with a NUL byte in its name)
            ("set", kind, name.replace(b"\0", b"!") if kind == "xattrs" else name, chance.choice([0, 9, 300])),
            ("rm", "keys", name),
            ("next", kind),
            ("above", kind, name),
            ("read", place, chance.choice([0, 1, 9, 360])),
            ("read", place, chance.choice([1, 360])),
            ("write", place, chance.choice([0, 1, 360])),
            ("truncate", place),
            ("stat",),
            ("create",) if chance.random() < 0.9 else ("remove",),
        ]
    )


def random_object(chance):
    if chance.random() < 0.05:
        return None
    whole = Object(bytes(chance.choice([0, 9, 4096, 5000, 65536, 65537, 300000])))
    whole.data = chance.randbytes(min(len(whole.data), 9999)).ljust(len(whole.data), b"d")
    for part, counts in (whole.xattrs, (0, 3, 20, 32, 33, 60)), (whole.keys, (0, 3, 20, 100, 1024, 1025, 2000)):
        part.update({b"%04d" % n: chance.randbytes(chance.randrange(9)) for n in range(chance.choice(counts))})
        if chance.random() < 0.1:
            part[chance.choice([b"0001", b"0100", b"9", b"0001" + b"n" * 61])] = bytes(chance.choice([4096, 4097]))
    return whole


def try_random(backend, tally, chance, count):
    for _ in range(count):
        whole = random_object(chance)
        length = chance.choice([1, 3, 10, 30, 60])
        operations = [random_operation(chance, whole) for _ in range(length)]
        if chance.random() < 0.3:
            operations = walk(chance.randrange(350)) + operations[:20]
        image, caller = image_of(operations), backend.number()
        step = chance.random() < 0.1
        words = {"step": 1, "left": whole and (whole, {}, b"")} if step and isinstance(backend, osd.StandIn) else {}
        try:
            found, lines = parts.call(method_of(image), whole, caller, b"", bool(words), expected.MOST_DATA)
            wanted, after, why = (0, struct.pack("<qQ", found.code, found.steps)), found.after, None
        except parts.Refused as refused:
            wanted, after, why = (refused.result, b""), whole, refused.why
        backend.put("o", whole)
        what = f"{operations} on {whole}"
        tally.want(what, backend.call("o", "exec_sent", request(image, b"f", b"", True), **words), wanted)
        tally.want(f"the object after {what}", backend.get("o"), after)
        if not isinstance(backend, osd.StandIn):
            continue
        if why:
            tally.want(f"the log of {what}", backend.log[0].split(": ")[-1], why)
        if wanted[0] == 0:
            tally.want(f"what is asked for by {what}", asked_for(backend), lines)


def main(words):
    tally, backend = osd.Tally(f"objects of any size, {words[1]}"), osd.open_from(words[1:])
    for row in rows():
        try_row(backend, tally, *row)
    try_beside(backend, tally)
    try_random(backend, tally, osd.seeded(3), 300 if words[1] == "stand-in" else 60)
    backend.close()
    tally.end()


if __name__ == "__main__":
    main(sys.argv[1:])

#!/usr/bin/env python3
"""Installed classes with loops: what their calls answer and leave, by hand and by the interpreter of model.py; that the
class `bpf` takes none; and, over the stand-in, which image and which budget an OSD takes.

    loops.py IMAGES cluster CONF | stand-in PROGRAM FOLDER

IMAGES has `loops.img`. In the cluster it is installed as `loops`, and as `older` without a file that keeps a budget.
"""

import argparse
import contextlib
import hashlib
import io
import os
import shutil
import struct
import sys
import tempfile

import expected
import model
import osd
from model import Object
from osd import load_request, radosbpf, request

USUAL, MOST = 131072, 1048576
LONGEST = 3826120  # bytes of an image


def number(value):
    return struct.pack("<Q", value)


def filled(count, before=None):
    """What `fill` leaves of an object."""
    whole = before.copy() if before else Object()
    data = b"".join(map(number, range(count)))
    whole.data = data + whole.data[len(data) :]
    whole.keys.update({struct.pack(">H", n): number(n) for n in range(count)})
    return whole


def rows():
    """A line each: what, the object, method, input, result, output, the object after."""
    text = Object(b"text", {b"x": b"1"}, {b"k": b"2"})
    set_x = Object(b"text", {b"x": b"x"}, {b"k": b"2"})
    keys = lambda count: Object(b"", {}, {b"%04d" % n: b"v" for n in range(count)})
    ones = lambda count: Object(b"\1" * count)
    return [
        ("no loop", text, "stat", b"", 4, b"", text),
        ("a sum", text, "sum", b"\1\2\xff", 258, number(258), text),
        ("of no bytes", text, "sum", b"", 0, number(0), text),
        ("of the longest input", text, "sum", b"\xff" * 4096, 1044480, number(1044480), text),
        ("a byte past it", text, "sum", b"\xff" * 4097, -22, b"", text),
        ("a sum, of no object", None, "sum", b"\1", -2, b"", None),
        ("no keys", Object(), "keys", b"", 0, number(0), Object()),
        ("three keys", keys(3), "keys", b"", 3, number(3), keys(3)),
        ("300 keys, by four rounds", keys(300), "keys", b"", 300, number(300), keys(300)),
        ("data, by three rounds", ones(20000), "total", b"", 20000, number(20000), ones(20000)),
        ("data past the budget", ones(22000), "total", b"", -62, b"", ones(22000)),
        ("five keys and numbers", text, "fill", number(5), 5, b"", filled(5, text)),
        ("of an absent object", None, "fill", number(5), 5, b"", filled(5)),
        ("800 of them", None, "fill", number(800), 800, b"", filled(800)),
        ("900, past the budget", text, "fill", number(900), -62, b"", text),
        ("of an absent object, past the budget", None, "fill", number(900), -62, b"", None),
        # 72 before the loop, 2 for each time round, 2 behind it: 1000 at 463
        ("the last time round", text, "spin", number(463), 463, b"", set_x),
        ("once more", text, "spin", number(464), -62, b"", text),
        ("without end", text, "spin", number((1 << 64) - 1), -62, b"", text),
        ("without end, an absent object", None, "spin", number((1 << 64) - 1), -62, b"", None),
    ]


def try_rows(backend, tally, cls):
    for what, whole, method, data, result, output, after in rows():
        backend.put("row", whole)
        tally.want(f"{cls}: {what}", backend.call("row", method, data, cls=cls), (result, output))
        tally.want(f"{cls}: the object after: {what}", backend.get("row"), after)


def some_input(chance, method):
    if method in (b"fill", b"spin"):
        return number(chance.choice([0, 1, 2, 17, 40, 462, 463, 464, 1000, 1 << 63]))
    return chance.randbytes(chance.choice([0, 1, 9, 300])) if method == b"sum" else b""


def try_random(backend, tally, image, times):
    """Random calls, beside the model: answer, object and, over the stand-in, what the OSD is asked for."""
    chance, methods = osd.seeded(7), model.methods_of(image)
    is_stood_in, caller = isinstance(backend, osd.StandIn), backend.number()
    environment = backend.environment() if is_stood_in else model.environment(caller, b"", 0, 0, b"")
    for _ in range(times):
        name, whole = chance.choice(list(methods)), osd.some_object(chance)
        method, data, held = methods[name], some_input(chance, name), whole and (whole, {})
        backend.put("random", whole)
        found = backend.call("random", name.decode(), data, cls="loops")
        result, output, after, edits = expected.native(method, data, held, caller, environment)
        what = f"{name.decode()} {data[:8].hex()} on {whole}"
        tally.want(what, found, (result, b"" if result < 0 else output))
        tally.want(f"the object after {what}", backend.get("random"), after and after[0])
        if is_stood_in and result >= 0:
            trace = [line for line in backend.trace if line != "origin"]
            wanted = expected.trace(method, data, whole, caller, False, edits, {}, environment, b"")
            tally.want(f"reads and changes of {what}", trace, wanted)


def try_bpf(backend, tally, image):
    """The class `bpf` takes no loops, also of an image that somebody stored."""
    backend.put("o", Object(b"text"), {b"loops": image})
    for what, way, data in (
        ("sent", "exec_sent", request(image, b"stat", b"", True)),
        ("sent, and read", "see_sent", request(image, b"sum", b"\1", True)),
        ("stored", "exec", request(b"loops", b"sum", b"\1", False)),
        ("stored, and run", "run", request(b"loops", b"spin", number(1), False)),
        ("loaded", "load", load_request(b"l", image)),
    ):
        tally.want(f"bpf: {what}", backend.call("o", way, data), (-8, b""))
    # the jump back of `fill` is its instruction 23, counted from 0
    line = b"refused method 0 slot 23: 1 Backward"
    tally.want("bpf: verify", backend.call("o", "verify", image), (0, line))
    tally.want("bpf: the object after", backend.get("o"), Object(b"text"))


def try_log(backend, tally, image):
    """A spent call is a call with a code."""
    line = f"1 bpf: class loops is opened, image {sum_of(image)}, budget {USUAL}"
    tally.want("the log of the opening", backend.opened.count(line), 1)
    backend.put("o", Object(b"text"))
    backend.call("o", "spin", number(464), cls="loops")
    line = "10 loops.spin: code -62, steps 1000, bytes: input 8, output 0, edits 0"
    tally.want("the log of a spent call", (backend.log, backend.changes()), ([line], []))
    backend.call("o", "spin", number(463), cls="loops")
    line = "10 loops.spin: code 463, steps 937, bytes: input 8, output 0, edits 7"
    tally.want("the log of one that isn't", (backend.log, len(backend.changes())), ([line], 1))
    found = backend.call("o", "spin", number(464), cls="loops", step=1), backend.get("o")
    tally.want("a spent call behind another step", found, ((-62, b""), Object(b"text", {b"x": b"x"})))


def try_edits(backend, tally):
    """As many edits as a call may have, and one more."""
    method, text = model.methods_of(cuts(300000))[b"a"], Object(b"text")
    for count, wanted in ((1, 0), (4096, 0), (4097, -7)):
        backend.put("o", text)
        tally.want(f"{count} edits", backend.call("o", "a", number(count), cls="cuts"), (wanted, b""))
        tally.want(f"the object after {count} edits", backend.get("o"), text if wanted else Object())
        found = expected.native(method, number(count), (text, {}), backend.number(), backend.environment())
        tally.want(f"the model's {count} edits", found[0], wanted)
    line = "5 cuts.a: refused -7: over 4096 edits in a call"
    tally.want("the log of an edit too many", (backend.log, backend.changes()), ([line], []))


def sum_of(image):
    return hashlib.sha256(image).hexdigest()


def image_of(code, budget=None, heads=b"", count=0, methods=1):
    """Methods `a`, `b` .. of rule set 3 that have the same code and heads, and take 8 bytes."""
    loops = struct.pack("<H", count) + (struct.pack("<I", budget) + heads if count else b"")
    body = struct.pack("<BHHH", 2, 8, 0, len(code) // 8) + code + loops
    names = [b"\1" + bytes([0x61 + n]) for n in range(methods)]
    return b"RCL3" + struct.pack("<HH", methods, 0) + b"".join(name + body for name in names)


NOTHING, AGAIN, EXIT = map(bytes.fromhex, ("b700000000000000", "0500ffff00000000", "9500000000000000"))


def endless(budget):
    """`mov r0, 0`, and a jump to itself, at whose head nothing is declared: each call of `a` is spent."""
    return image_of(NOTHING + AGAIN, budget, struct.pack("<HB", 1, 0), 1)


# ldxdw r6, [r1+0]; mov r7, 0; a head: mov r1, 0; call 4; add r7, 1; jlt r7, r6, -4; and at the end mov r0, 0; exit
CUTS = bytes.fromhex("7916000000000000" "b707000000000000")
CUTS += bytes.fromhex("b701000000000000" "8500000004000000" "0707000001000000" "ad67fcff00000000") + NOTHING + EXIT


def cuts(budget):
    """Cuts the data to no bytes, as often as the input says: each cut is an edit. r1 to r3 are unset at the head."""
    return image_of(CUTS, budget, struct.pack("<HB", 2, 4) + b"\1\0\2\0\3\0\7\1", 1)


def wide():
    """An image of over 2 MiB: 20 methods of 4,096 slots, without a jump, whose heads declare the whole stack."""
    places = b"".join(struct.pack("<BBQQ", place, 2, 0, (1 << 64) - 1) for place in range(11, 75))
    heads = b"".join(struct.pack("<HB", slot, 64) + places for slot in range(1, 65))
    return image_of(NOTHING * 4095 + EXIT, 4096, heads, 64, 20)


def classes(folder):
    """A line each: name, image, the budget's file or none, the budget that is told, why it is refused or nothing."""
    over = "method 0 declares a budget of %d, over the class's of %d"
    damaged = [b"", b"\n", b"0\n", b"-5\n", b"+5\n", b" 5\n", b"5 \n", b"05\n", b"5\n\n", b"5\r\n", b"0x5\n", b"five\n"]
    damaged += [b"1048577\n", b"18446744073709551617\n", b"5\0", b"5\n5\n"]
    bad = lambda name: f"{folder}/{name}.budget has no number from 1 to {MOST}"
    return [
        ("least", endless(1), b"1\n", 1, ""),
        ("equal", endless(200000), b"200000\n", 200000, ""),
        ("less", endless(200000), b"200001\n", 200001, ""),
        ("line", endless(USUAL), b"%d" % USUAL, USUAL, ""),
        ("usual", endless(USUAL), None, USUAL, ""),
        ("most", endless(MOST), b"%d\n" % MOST, MOST, ""),
        ("greater", endless(200001), b"200000\n", 200000, over % (200001, 200000)),
        ("greater_than_usual", endless(USUAL + 1), None, USUAL, over % (USUAL + 1, USUAL)),
        ("greatest", endless(MOST), b"1\n", 1, over % (MOST, 1)),
        ("undeclared", image_of(NOTHING + AGAIN), b"5\n", 5, "refused method 0 slot 1: 1 Backward"),
        ("too_great", endless(MOST + 1), b"%d\n" % MOST, MOST, "image refused after 0 methods: 10 Limit"),
        ("cuts", cuts(300000), b"300000\n", 300000, ""),
        ("wide", wide(), None, USUAL, ""),
        ("long", EXIT * (LONGEST // 8), None, USUAL, "image refused after 0 methods: 2 Magic"),
        ("too_long", EXIT * (LONGEST // 8) + b"1", None, USUAL, "the file is too long for an image"),
        ("no_file", endless(5), os.mkdir, "-", bad("no_file")),
        *((f"damaged{n}", endless(5), text, "-", bad(f"damaged{n}")) for n, text in enumerate(damaged)),
    ]


def make_class(folder, name, image=None, budget=None):
    """The files of an installed class."""
    path = os.path.join(folder, name)
    shutil.copy(os.path.join(folder, "libcls_bpf.so"), os.path.join(folder, f"libcls_{name}.so"))
    if callable(budget):
        budget(f"{path}.budget")
        budget = None
    for ending, content in (("img", image), ("budget", budget)):
        if content is not None:
            with open(f"{path}.{ending}", "wb") as file:
                file.write(content)


@contextlib.contextmanager
def new_folder(folder):
    """A folder with the plug-in alone, which takes classes that are sent."""
    with tempfile.TemporaryDirectory() as made:
        for name in ("libcls_bpf.so", "sillarnica_engine.so", "bpf.sent"):
            shutil.copy(os.path.join(folder, name), made)
        yield made


def opened_of(lines):
    """The log of the opening, by the class."""
    return {line.split("class ")[1].split(" ")[0]: line for line in lines if "class " in line}


def try_opening(tally, program, folder, image):
    """Each class of the table: the log, what `classes` says of it, and a call."""
    with new_folder(folder) as made:
        table = classes(made)
        for name, content, budget, _, _ in table:
            make_class(made, name, content, budget)
        make_class(made, "loops", image, b"%d\n" % USUAL)
        make_class(made, "older", image)
        backend = osd.StandIn(program, made)
        found = opened_of(backend.opened)
        backend.put("o", Object(b"text"))
        told = dict(line.split(" ", 1) for line in backend.call("o", "classes")[1].decode().splitlines())
        for name, content, _, budget, why in table:
            summed = sum_of(content[: LONGEST + 1])
            line = f"0 bpf: class {name} is refused: {why}"
            line = line if why else f"1 bpf: class {name} is opened, image {summed}, budget {budget}"
            tally.want(f"the opening of {name}", found.get(name), line)
            tally.want(f"what is told of {name}", told.get(name), f"{summed} {'refused' if why else 'ok'} {budget}")
            if name != "cuts":
                result = -95 if why else 0 if name == "wide" else -62
                tally.want(f"a call of {name}", backend.call("o", "a", cls=name), (result, b""))
        for name in ("loops", "older"):
            line = f"1 bpf: class {name} is opened, image {sum_of(image)}, budget {USUAL}"
            tally.want(f"the opening of {name}", found.get(name), line)
        tally.want("what is told of bpf", told.get("bpf"), "- ok -")
        try_rows(backend, tally, "loops")
        try_rows(backend, tally, "older")
        try_random(backend, tally, image, 300)
        try_bpf(backend, tally, image)
        try_log(backend, tally, image)
        try_edits(backend, tally)
        backend.close()


class Ended(Exception):
    """The installation ends here."""


def install(folder, image, budget, files=None):
    """Installs the class `again` by radosbpf, which ends when it has put so many files: whether it came to its end."""
    path, put, left = os.path.join(folder, "new", "again.img"), radosbpf.put_file, files
    os.makedirs(os.path.dirname(path), exist_ok=True)
    with open(path, "wb") as file:
        file.write(image)

    def put_some(*words):
        nonlocal left
        if left == 0:
            raise Ended
        left = left and left - 1
        put(*words)

    # There is no library in the folder to ask.
    kept = radosbpf.plug_in_folder, radosbpf.test_class
    radosbpf.plug_in_folder, radosbpf.test_class, radosbpf.put_file = (lambda of: of), (lambda *_: None), put_some
    try:
        with contextlib.redirect_stdout(io.StringIO()):
            radosbpf.install(argparse.Namespace(dir=folder, image=path, replace=False, budget=budget))
        return True
    except Ended:
        return False
    finally:
        radosbpf.plug_in_folder, radosbpf.test_class = kept
        radosbpf.put_file = put


def try_half_way(tally, program, folder):
    """A class that is installed anew, with another budget, and the installation ends after each of its files: an OSD
    opens what it finds, the older image or the newer.
    """
    for before, after in ((5, 7), (7, 5), (5, 5), (None, 5), (None, MOST), (MOST, USUAL)):
        for files in range(5):
            with new_folder(folder) as made:
                older, newer = endless(before or USUAL), endless(after)
                install(made, older, before or USUAL)
                if before is None:  # as an older radosbpf left it
                    os.unlink(os.path.join(made, "again.budget"))
                is_done = install(made, newer, after, files)
                tally.want(f"{before} to {after}, {files} files: it is done", is_done, files >= 3)
                backend = osd.StandIn(program, made)
                found, what = opened_of(backend.opened)["again"], f"{before} to {after}, {files} files"
                backend.close()
                of = lambda image: f"1 bpf: class again is opened, image {sum_of(image)}, budget "
                tally.want(f"{what}: opened", found.startswith((of(older), of(newer))), True)
                if is_done:
                    tally.want(f"{what}: the new one", found, f"{of(newer)}{after}")


def main(words):
    image = osd.images_in(words[0])[b"loops"]
    tally = osd.Tally(f"classes with loops, {words[1]}")
    if words[1] == "stand-in":
        program, folder = words[2:]
        try_opening(tally, program, folder, image)
        try_half_way(tally, program, folder)
        tally.end()
    backend = osd.open_from(words[1:])
    try_rows(backend, tally, "loops")
    try_rows(backend, tally, "older")
    try_random(backend, tally, image, 150)
    try_bpf(backend, tally, image)
    backend.close()
    tally.end()


if __name__ == "__main__":
    main(sys.argv[1:])

#!/usr/bin/env python3
"""Random calls, each beside the expected answer, by an interpreter of its own and by `radoscls run`: code,
steps, output, the whole object; over the stand-in also behind other steps of an operation, and what is read and
changed for it, and the line in the log.

    random_calls.py IMAGES RADOSCLS CALLS SECONDS SEED cluster CONF | stand-in PROGRAM FOLDER

IMAGES is a folder of class images, which are installed too. It makes at least so many calls, and goes on for at
least so many seconds. In a cluster three sessions call, each on objects of its own.
"""

import struct
import subprocess
import sys
import tempfile
import threading
import time

import expected
import osd
from osd import radosbpf


def number(value):
    return struct.pack("<Q", value % (1 << 64))


def random_input(chance, method, whole):
    """An input that mostly means something to the method."""
    names = [*(whole.xattrs if whole else ()), *(whole.keys if whole else ())]
    name = chance.choice(names) if names and chance.random() < 0.6 else osd.random_name(chance)
    if chance.random() < 0.03:
        return chance.randbytes(chance.choice([0, 1, 9, 65, 5000]))
    place = chance.choice([0, 1, 64, 500, 3000, 65000, 65537, 200000, -1])
    return {
        b"code": lambda: number(
            chance.choice([0, 5, -1, -11, -16, -115, -4095, -4096, 2**31 - 1, 2**31, -(2**63)])
        ),
        b"code_change": lambda: number(chance.choice([0, 5, -1, 2**31, 2**31 - 1])),
        b"create": lambda: number(chance.randrange(2)),
        b"truncate": lambda: number(place),
        b"read": lambda: number(place) + number(chance.choice([0, 10, 4096, 4097])),
        b"reply": lambda: number(chance.choice([0, 48, 49, 64, 65, 4000])),
        b"write": lambda: number(place) + chance.randbytes(chance.choice([0, 1, 30, 4000])),
        b"setxattr": lambda: bytes([len(name)]) + name + chance.randbytes(chance.choice([0, 0, 5, 300])),
        b"map_set": lambda: bytes([len(name)]) + name + chance.randbytes(chance.choice([0, 5, 300])),
        b"mix": lambda: bytes([chance.randrange(8), chance.randrange(9)])
        + chance.choice([b"aabbcd", name[:1] * 6, chance.randbytes(6)])
        + chance.randbytes(chance.choice([24, 40, 3])),
    }.get(method, lambda: name if chance.random() < 0.9 else b"")()


class Caller:
    """One session, and the objects that it alone calls on."""

    def __init__(self, backend, images, radoscls, tally, seed):
        self.backend, self.images, self.radoscls, self.tally = backend, images, radoscls, tally
        self.chance, self.made, self.slowest = osd.seeded(seed), 0, 0
        self.names = [f"random.{seed}.{n}" for n in range(5)]
        self.held, self.headers = {}, {}
        for name in self.names:
            self.begin(name)

    def begin(self, name):
        """The object anew, with all classes beside it."""
        whole = osd.some_object(self.chance)
        self.held[name], self.headers[name] = None if whole is None else (whole, dict(self.images)), b""
        self.backend.put(name, whole, self.images)

    def go(self):
        chance = self.chance
        oid = chance.choice(self.names)
        if chance.random() < 0.05:
            self.begin(oid)
        held = self.held[oid]
        cls = chance.choice([b"helpers"] * 4 + [*self.images])
        image = self.images[cls]
        method = chance.choice([*expected.model.methods_of(image)] if chance.random() < 0.98 else [b"none", b""])
        way = chance.choice(["exec", "exec", "exec", "query", "run", "see", "native", "native", "native"])
        sent = chance.random() < 0.4 or (held is None and chance.random() < 0.9)
        data = random_input(chance, method, held[0] if held else None)
        before = held[0].copy() if held else None
        steps = self.steps(held)
        if way == "native":
            environment = self.environment(self.headers[oid])
            found, wanted = self.native(oid, cls, method, data, held, environment, steps)
        else:
            way += "_sent" * sent
            asked = osd.request(image if sent else cls, method, data, sent)
            found = self.timed(oid, way, asked, **self.words(steps))
            wanted = expected.call(way, asked, held, self.backend.number(), self.images.values(), **steps)
        result, output, after, edits = wanted
        what = f"{way} {cls.decode()} {method.decode()} {data[:40].hex()} on {before}"
        if steps:
            what += f" that earlier steps made {steps['left'] and steps['left'][0]}"
        self.tally.want(what, found, (result, b"" if result < 0 else output))
        self.tally.want(f"the object after {what}", self.backend.get(oid), after[0] if after else None)
        if isinstance(self.backend, osd.StandIn):
            method = expected.model.methods_of(image).get(method)
            self.look(what, found, method, data, held, edits, steps, self.headers[oid], way == "native")
        header = b"" if steps and found[0] >= 0 else self.headers[oid]
        self.held[oid], self.headers[oid] = after, after and expected.header_after(edits, header) or b""
        self.made += 1
        if steps:
            return
        is_within = not expected.limits(before)
        if self.radoscls and is_within and not (way in expected.READS and held is None) and way != "native":
            self.beside(what, image, method, data, before, found, result, after)

    def timed(self, *words, **others):
        start = time.monotonic()
        found = self.backend.call(*words, **others)
        self.slowest = max(self.slowest, time.monotonic() - start)
        return found

    def steps(self, held):
        """Now and then earlier steps of the operation, by what they left of what was held; none in a cluster."""
        if not isinstance(self.backend, osd.StandIn) or self.chance.random() < 0.7:
            return {}
        others = [osd.some_object(self.chance) for _ in range(2)]
        left = self.chance.choice([held[0] if held else None, *others])
        classes = held[1] if held and self.chance.random() < 0.9 else {}
        if left and self.chance.random() < 0.5:
            left = expected.model.Object(b"", left.xattrs, left.keys)
        return {"behind": True, "left": left and (left.copy(), classes)}

    @staticmethod
    def words(steps):
        """The same for the stand-in."""
        return {"step": 1, "left": steps["left"] and (*steps["left"], b"")} if steps else {}

    def native(self, oid, cls, method, data, held, environment, steps):
        """A call of the class by its own name."""
        name = expected.native_name(cls)
        found = self.timed(oid, method.decode() or "none", data, cls=name, **self.words(steps))
        declared = expected.model.methods_of(self.images[cls]).get(method)
        if declared is None:
            return found, (-95, b"", held, [])
        return found, expected.native(declared, data, held, self.backend.number(), environment, **steps)

    def environment(self, header):
        """In a cluster all but its names and the header can't be foretold, and no call asks for more of it."""
        if isinstance(self.backend, osd.StandIn):
            return self.backend.environment(header)
        return expected.model.environment(self.backend.number(), b"", 0, 0, header)

    def look(self, what, found, method, data, held, edits, steps, header, is_native):
        """What the call asked of the OSD, and what it wrote into the log."""
        trace = [line for line in self.backend.trace if line != "origin" and not line.startswith("xattr ")]
        levels = [line.split()[0] for line in self.backend.log]
        is_asked = self.backend.osd_calls > 0 or self.backend.log
        self.tally.want(f"the log of {what}", levels in (["10"], ["5"]), bool(is_asked))
        if found[0] < 0 or not method:
            return
        (whole, classes), caller = held or (None, {}), self.backend.number()
        left = steps.get("left")
        seen = expected.shown(whole, left and left[0]) if steps else whole
        environment = self.environment(header) if is_native else None
        is_made = is_native and not seen and expected.asks_for_object(method, data, caller)
        wanted = expected.trace(method, data, seen, caller, bool(steps), edits, classes, environment, header)
        wanted[1:1] = ["random 16"] if is_made else []
        self.tally.want(f"reads and changes of {what}", trace, wanted)
        length = len(expected.model.spelled(edits[is_made is True :]))
        self.tally.want(f"edits of {what}", self.backend.log[0].rsplit(" ", 1)[1], str(length))

    def beside(self, what, image, method, data, before, found, result, after):
        """The same call by `radoscls run`, where the limits of a flat form don't matter to it."""
        if result == -61 or not expected.is_flat(image, method, data, before, self.backend.number()):
            return
        lines = run_lines(self.radoscls, image, method, data, before, self.backend.number())
        if result in (-38, -90) or lines[0].startswith("call"):
            # radoscls asks for a text as a method's name; no method has an empty one
            self.tally.want(
                f"radoscls, {what}",
                lines,
                [{-38: "call refused: 1 NoMethod", -90: "call refused: 2 InputTooLong"}[result]],
            )
            return
        code, output, steps = lines[0].split()[1], lines[1].split()[1], lines[2].split()[1]
        if result == 0 and found[1][16:17] is not None and len(found[1]) >= 16 and what.split()[0] in expected.FRAMED:
            mine = struct.unpack_from("<qQ", found[1]) + (radosbpf.hex_of(found[1][16:]),)
            self.tally.want(f"radoscls, {what}", mine, (int(code), int(steps), output))
        if result not in (-30, -105, -75, -13, -84):
            shown = after[0] if after else None
            self.tally.want(f"radoscls's object, {what}", lines[3:], radosbpf.object_lines(shown))


def run_lines(radoscls, image, method, data, whole, caller):
    words = [radoscls, "run", "-", method.decode() or " ", "--input", data.hex(), "--caller", str(caller), "--show"]
    # A word has less than 131,072 bytes: the digits of the largest object are one too many.
    with tempfile.NamedTemporaryFile() as file:
        if whole is not None:
            file.write(whole.data)
            file.flush()
            words += ["--object", f"@{file.name}"]
            for word, part in (("--xattr", whole.xattrs), ("--key", whole.keys)):
                words += [each for name, value in part.items() for each in (word, f"0x{name.hex()}={value.hex()}")]
        made = subprocess.run(words, input=image, stdout=subprocess.PIPE, timeout=60, check=False)
    return made.stdout.decode().splitlines()


def main(words):
    folder, radoscls, calls, seconds, seed = words[:5]
    images = osd.images_in(folder)
    tally = osd.Tally("random calls")
    count = 3 if words[5] == "cluster" else 1
    callers = [
        Caller(osd.open_from(words[5:]), images, radoscls if radoscls != "-" else None, tally, int(seed) * 10 + n)
        for n in range(count)
    ]
    end = time.monotonic() + float(seconds)

    def work(caller):
        try:
            while caller.made * count < int(calls) or time.monotonic() < end:
                caller.go()
        except Exception as error:  # it would end its thread alone
            tally.want("no exception", repr(error), None)

    threads = [threading.Thread(target=work, args=(caller,)) for caller in callers]
    for each in threads:
        each.start()
    for each in threads:
        each.join()
    for caller in callers:
        caller.backend.close()
    made, slowest = sum(caller.made for caller in callers), max(caller.slowest for caller in callers)
    print(f"     {made} random calls, seed {seed}, the slowest {slowest:.1f} s", flush=True)
    tally.want("calls that were made", made >= int(calls), True)
    tally.end()


if __name__ == "__main__":
    main(sys.argv[1:])

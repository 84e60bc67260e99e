"""Random methods on objects of any size, through the library's call on parts, for tools/embed.sh.

    embed_parts.py LIBRARY RADOSCLS [--seconds N] [--seed N] [--loops]

LIBRARY is a shared object, RADOSCLS assembles the methods. Objects have up to 128 MiB of data, 100,000 keys and 100
xattrs. Each call goes by rounds: the host here keeps the object, and fetches what a need names, often with more that
follows. What each round should answer, a need, -28 or the answer, is told beforehand by a model that is written after
docs/EMBED.md and docs/ASSEMBLY.md alone, over the interpreter of ceph/tests/model.py: need, code, output, steps, edits and
the object after them are compared. With --loops the methods have loops, whose heads RADOSCLS finds, and run by budgets. N is 10
seconds, and seed 1."""
import argparse, bisect, os, random, struct, subprocess, sys, tempfile, time

TOP = os.path.join(os.path.dirname(os.path.abspath(__file__)), "..")
sys.path[:0] = [os.path.join(TOP, "examples", "embed"), os.path.join(TOP, "ceph", "tests")]
sys.dont_write_bytecode = True
import host, model
from embed_loops import SPENT, ByBudget, Spent, loops_of

BLOCK = 4096
ANY = 0xFFFFFFFF
IN, OUT = 1024, 20000
ENOENT, EEXIST, EINVAL, EFBIG, ENOSPC, ERANGE, ENODATA = -2, -17, -22, -27, -28, -34, -61
XATTRS, KEYS = 0, 1
MOST = (32, 1024)  # of xattrs and keys that a call keeps


# Objects, as the host keeps them: blocks that aren't kept are zeros.


class Large:
    def __init__(self):
        self.is_there, self.size, self.blocks = False, 0, {}
        self.names, self.order = ({}, {}), ([], [])

    def read(self, at, end):
        """The bytes from `at` to `end`, both within the data."""
        found = bytearray(end - at)
        for b in range(at // BLOCK, -(-end // BLOCK)):
            block = self.blocks.get(b)
            if block:
                low, high = max(at, b * BLOCK), min(end, (b + 1) * BLOCK)
                found[low - at : high - at] = block[low - b * BLOCK : high - b * BLOCK]
        return bytes(found)

    def put(self, at, new):
        while new:
            b, low = divmod(at, BLOCK)
            block = self.blocks.setdefault(b, bytearray(BLOCK))
            some = new[: BLOCK - low]
            block[low : low + len(some)] = some
            at, new = at + len(some), new[len(some) :]

    def cut(self, size):
        if size < self.size:
            for b in [b for b in self.blocks if (b + 1) * BLOCK > size]:
                if b * BLOCK >= size:
                    del self.blocks[b]
                else:
                    self.blocks[b][size - b * BLOCK :] = bytes((b + 1) * BLOCK - size)
        self.size = size

    def set(self, kind, name, value):
        if name not in self.names[kind]:
            bisect.insort(self.order[kind], name)
        self.names[kind][name] = value

    def unset(self, kind, name):
        if self.names[kind].pop(name, None) is not None:
            del self.order[kind][bisect.bisect_left(self.order[kind], name)]

    def since(self, kind, place, count):
        """So many names from a place on, in order."""
        first = bisect.bisect_left(self.order[kind], place)
        return self.order[kind][first : first + count]


def make(whole, edits):
    """Makes edits, as the library spells them, of an object. None may be of a name that isn't there, nor of no object."""
    at = 0

    def take(n):
        nonlocal at
        at += n
        return edits[at - n : at]

    def number(form):
        return struct.unpack(form, take(struct.calcsize(form)))[0]

    while at < len(edits):
        edit = take(1)[0]
        assert whole.is_there == (edit != 1), "an edit of an object that is there, or isn't"
        if edit <= 2:
            whole.__init__()
            whole.is_there = edit == 1
        elif edit == 7:
            whole.cut(number("<Q"))
        elif edit == 8:
            place, new = number("<Q"), take(number("<I"))
            assert new, "a write of nothing"
            whole.put(place, new)
            whole.size = max(whole.size, place + len(new))
        else:
            kind, name = XATTRS if edit <= 4 else KEYS, take(number("<H"))
            if edit % 2:
                whole.set(kind, name, take(number("<H")))
            else:
                assert name in whole.names[kind], "a removal of a name that isn't there"
                whole.unset(kind, name)
    assert at == len(edits), "the edits pass their end"


# What is known of an object.


class Part:
    """Blocks by number, and of xattrs and keys intervals, in order and apart: from the first name to below the second, which is
    empty for the end."""

    def __init__(self):
        self.blocks, self.intervals = set(), ([], [])

    def learn(self, kind, low, high):
        kept = []
        for one in self.intervals[kind]:
            if one[1] and one[1] < low or high and high < one[0]:
                kept.append(one)
            else:
                low, high = min(low, one[0]), b"" if not high or not one[1] else max(high, one[1])
        self.intervals[kind][:] = sorted([*kept, (low, high)])

    def interval(self, kind, name):
        """The interval that has a name."""
        for one in self.intervals[kind]:
            if one[0] <= name and (not one[1] or name < one[1]):
                return one
        return None

    def entries(self, kind, whole):
        found = []
        for low, high in self.intervals[kind]:
            names = whole.order[kind]
            found += names[bisect.bisect_left(names, low) : bisect.bisect_left(names, high) if high else None]
        return found

    def spelled(self, whole):
        if not whole.is_there:
            return b"\0"
        text = lambda of: struct.pack("<H", len(of)) + of
        form = [b"\1", struct.pack("<QI", whole.size, len(self.blocks))]
        for b in sorted(self.blocks):
            form += [struct.pack("<Q", b), whole.read(b * BLOCK, min((b + 1) * BLOCK, whole.size))]
        for kind in (XATTRS, KEYS):
            entries = self.entries(kind, whole)
            form += [struct.pack("<H", len(self.intervals[kind])), *(text(end) for one in self.intervals[kind] for end in one)]
            form += [struct.pack("<H", len(entries)), *(text(name) + text(whole.names[kind][name]) for name in entries)]
        return b"".join(form)


class Needs(Exception):
    """The call needs what these bytes spell."""


class Full(Exception):
    """The call sets too many names."""


def need(kind, name):
    return Needs(bytes([kind]) + struct.pack("<H", len(name)) + name)


class Run(ByBudget):
    """One round: a run on a whole object, by limits, that stops where a part of it doesn't say what a helper asks for."""

    def __init__(self, method, budget, whole, part, limits, caller, data):
        super().__init__(method, None, caller, data)
        self.budget = budget
        self.base, self.part, self.limits, self.list = whole, part, limits, []
        self.is_there, self.size, self.calls, self.removals = whole.is_there, whole.size, 0, 0
        self.low = -(-whole.size // BLOCK)  # the object before has nothing in blocks from there on
        self.ops = []  # writes, as place and bytes, and cuts, as length and None
        self.is_new = not whole.is_there  # nothing of the object before is left, so all is known
        self.changed = ({}, {})  # names that were set, and removed ones as None
        entries = [[] if self.is_new else part.entries(kind, whole) for kind in (XATTRS, KEYS)]
        self.kept = [set(each) for each in entries]  # names with values that are known

    def step(self, opcode, dst, src, offset, imm, slot):
        if opcode != 0x85:
            return super().step(opcode, dst, src, offset, imm, slot)
        self.calls += 1
        self.registers[0] = HELPERS[imm](self, *self.registers[1:6]) & model.MASK
        return 0

    def edit(self, number, *texts):
        text = lambda of: of if isinstance(of, bytes) else struct.pack("<H", len(of[0])) + of[0]
        self.list.append(bytes([number]) + b"".join(map(text, texts)))

    # data

    def byte_range(self, at, end):
        """The bytes from `at` to `end` as the run has them."""
        old = b"" if self.is_new else self.base.read(at, max(at, min(end, self.base.size)))
        found = bytearray(old.ljust(end - at, b"\0"))
        for place, new in self.ops:
            if new is None:
                found[max(place - at, 0) :] = bytes(len(found) - min(max(place - at, 0), len(found)))
            elif place < end and at < place + len(new):
                low, high = max(place, at), min(place + len(new), end)
                found[low - at : high - at] = new[low - place : high - place]
        return bytes(found)

    def stat(self, *_):
        return self.size if self.is_there else ENOENT

    def read(self, at, to, room, *_):
        if not self.is_there:
            return ENOENT
        end = min(at + room, self.size)
        if at >= end:
            return 0
        unknown = [b for b in range(at // BLOCK, -(-end // BLOCK)) if b < self.low and b not in self.part.blocks]
        if unknown:
            raise Needs(struct.pack("<BQB", 1, unknown[0], unknown[-1] - unknown[0] + 1))
        self.store(to, self.byte_range(at, end))
        return end - at

    def write(self, at, start, length, *_):
        if at + length > self.limits[0]:
            return EFBIG
        self.make()
        new = self.load(start, length)
        if new:
            self.edit(8, struct.pack("<QI", at, length), new)
            self.ops.append((at, new))
            self.size = max(self.size, at + length)
        return length

    def truncate(self, size, *_):
        if size > self.limits[0]:
            return EFBIG
        if not self.is_there:
            return ENOENT
        self.edit(7, struct.pack("<Q", size))
        self.ops.append((size, None))
        self.size, self.low = size, min(self.low, -(-size // BLOCK))
        return 0

    def make(self):
        if not self.is_there:
            self.edit(1)
            self.is_there = True

    def create(self, exclusive, *_):
        if self.is_there and exclusive:
            return EEXIST
        self.make()
        return 0

    def remove(self, *_):
        if not self.is_there:
            return ENOENT
        self.edit(2)
        self.is_there, self.size, self.low, self.ops = False, 0, 0, []
        self.is_new, self.changed, self.kept = True, ({}, {}), [set(), set()]
        return 0

    # names

    def value(self, kind, name):
        if name in self.changed[kind]:
            return self.changed[kind][name]
        return None if self.is_new else self.base.names[kind].get(name)

    def is_known(self, kind, name):
        return self.is_new or name in self.kept[kind] or self.part.interval(kind, name) is not None

    def named(self, kind, start, length):
        """A name that is known, or an error."""
        if not 1 <= length <= self.limits[3 + kind]:
            return EINVAL
        if not self.is_there:
            return ENOENT
        name = self.load(start, length)
        if not self.is_known(kind, name):
            raise need(2 + kind, name)
        return name

    def get(self, kind, start, length, to, room):
        name = self.named(kind, start, length)
        return name if isinstance(name, int) else self.give(self.value(kind, name), to, room)

    def set(self, kind, start, length, value, size):
        if not 1 <= length <= self.limits[3 + kind]:
            return EINVAL
        if size > 4096:
            return EFBIG
        name = self.load(start, length)
        is_more = name not in self.kept[kind]
        if is_more and len(self.kept[kind]) >= self.limits[1 + kind] and self.limits[1 + kind] != ANY:
            return ENOSPC
        if is_more and len(self.kept[kind]) == MOST[kind]:
            raise Full
        self.make()
        self.edit(3 + 2 * kind, (name,), (self.load(value, size),))
        self.kept[kind].add(name)
        self.changed[kind][name] = self.load(value, size)
        return 0

    def unset(self, kind, start, length):
        name = self.named(kind, start, length)
        if isinstance(name, int):
            return name
        if self.value(kind, name) is None:
            return ENODATA
        self.edit(4 + 2 * kind, (name,))
        self.kept[kind].discard(name)
        self.changed[kind][name] = None
        self.removals += 1
        return 0

    def least(self, kind, place):
        """The least name from a place on."""
        own = [name for name, value in self.changed[kind].items() if value is not None and name >= place]
        if not self.is_new:
            n, names = bisect.bisect_left(self.base.order[kind], place), self.base.order[kind]
            while n < len(names) and self.changed[kind].get(names[n], b"") is None:
                n += 1
            own += names[n : n + 1]
        return min(own, default=None)

    def next(self, kind, start, length, to, room):
        if length > self.limits[3 + kind]:
            return EINVAL
        if not self.is_there:
            return ENOENT
        place = self.load(start, length) + b"\0" if length else b""
        ahead = min((name for name in self.kept[kind] if name >= place), default=None)
        if not self.is_new and ahead != place:
            one = self.part.interval(kind, place)
            if one is None:
                raise need(5 - kind, place)
            if one[1] and (ahead is None or one[1] < ahead):
                raise need(5 - kind, one[1])
        return self.give(self.least(kind, place), to, room)


def bound(name, kind):
    return lambda run, a, b, c, d, e: getattr(run, name)(kind, *((a, b) if name == "unset" else (a, b, c, d)))


HELPERS = {
    1: Run.stat, 2: Run.read, 3: Run.write, 4: Run.truncate, 5: Run.remove,
    6: bound("get", XATTRS), 7: bound("set", XATTRS), 8: bound("unset", XATTRS),
    9: bound("get", KEYS), 10: bound("set", KEYS), 11: bound("unset", KEYS), 12: bound("next", KEYS),
    13: Run.out_len, 14: Run.create, 15: lambda run, *_: run.caller, 16: Run.compare, 17: Run.copy,
    18: bound("next", XATTRS),
}


# Methods at random, as text: registers 6 and 7 have the input and the output, whose first words are the answers of the
# helpers. The input has 16 numbers, 8 lengths of names, and from 256 on room for 8 names, 70 bytes each. In a loop register 8
# counts the rounds, which may say the number and the name.

NUMBERS, NAMES, ANSWERS = 16, 8, 40


class Text:
    def __init__(self, r, loops):
        self.r, self.lines, self.at, self.answers, self.labels = r, [], 8 * ANSWERS, 0, 0
        self.loops, self.is_inside = loops, False

    def put(self, *lines):
        self.lines += lines

    def number(self, register):
        if self.is_inside and self.r.random() < 0.7:
            return self.put("mov r9, r8", "mul r9, 8", "add r9, r6", f"ldxdw r{register}, [r9+{8 * self.r.randrange(NUMBERS - NAMES + 1)}]")
        self.put(f"ldxdw r{register}, [r6+{8 * self.r.randrange(NUMBERS)}]")

    def name(self, register):
        if self.is_inside and self.r.random() < 0.7:
            self.put("mov r9, r8", "add r9, r6", f"ldxb r{register + 1}, [r9+128]")
            return self.put(f"mov r{register}, r8", f"mul r{register}, 70", f"add r{register}, r6", f"add r{register}, 256")
        n = self.r.randrange(NAMES)
        self.put(f"mov r{register}, r6", f"add r{register}, {256 + 70 * n}", f"ldxb r{register + 1}, [r6+{128 + n}]")

    def room(self, register, lengths):
        """A room in the output."""
        length = min(self.r.choice(lengths), OUT - self.at)
        self.put(f"mov r{register}, r7", f"add r{register}, {self.at}", f"mov r{register + 1}, {length}")
        self.at += length
        return self.at - length

    def value(self, register, lengths):
        length = self.r.choice(lengths)
        self.put(f"mov r{register}, r6", f"add r{register}, {self.r.randrange(IN - length + 1)}", f"mov r{register + 1}, {length}")

    def call(self, helper):
        self.put(f"call {helper}", f"stxdw [r7+{8 * self.answers}], r0")
        self.answers += 1

    def label(self):
        self.labels += 1
        return f"l{self.labels}"

    def walk(self, helper, remove):
        """The next names, each after the one before; with `remove` each is removed, and the least one is asked for again."""
        end, first = self.label(), self.r.random() < 0.5 or remove
        if first:
            self.put("mov r1, r6", "mov r2, 0")
        else:
            self.name(1)
        for _ in range(self.r.choice((1, 2, 3, 8)) if self.answers + 16 < ANSWERS else 1):
            at = self.room(3, (64,))
            self.call(helper)
            self.put(f"jgt r0, 64, {end}", "mov r2, r0", "mov r1, r7", f"add r1, {at}")
            if remove:
                self.call({12: 11, 18: 8}[helper])
                self.put("mov r1, r6", "mov r2, 0")
        self.put(f"{end}:")

    def statement(self):
        r = self.r
        helper = r.choice((1, 2, 2, 2, 2, 2, 2, 3, 3, 4, 5, 6, 6, 7, 7, 8, 9, 9, 10, 10, 11, 12, 12, 14, 15, 16, 17, 18, 18))
        if helper in (12, 18) and r.random() < 0.8:
            return self.walk(helper, r.random() < 0.3)
        if helper == 5:
            helper = r.choice((1, 5))
        if helper in (2, 3, 4, 14):
            self.number(1)
        if helper == 2:
            self.room(2, (0, 1, 8, 100, 4096, 5000, 9000))
        if helper == 3:
            self.value(2, (0, 1, 5, 100, 1000))
        if helper in (6, 7, 8, 9, 10, 11, 12, 16, 18):
            self.name(1)
        if helper in (6, 9, 12, 18):
            self.room(3, (0, 3, 20, 64, 300))
        if helper in (7, 10):
            self.value(3, (0, 1, 20, 300))
        if helper == 16:
            self.name(3)
        if helper == 17:
            self.room(1, (0, 8, 100)), self.value(3, (0, 8, 100))
        self.call(helper)
        if helper == 4 and r.random() < 0.5:  # and longer again, and what is there
            self.number(1)
            self.call(4)
            self.number(1)
            self.room(2, (8, 100, 5000))
            self.call(2)
        if helper == 5 and r.random() < 0.8:  # made again, empty
            self.put("mov r1, 0")
            self.call(14)

    def loop(self):
        """A statement or two, up to as often as there are names; or on and on, till the budget is used up."""
        head, self.is_inside = self.label(), True
        self.put("mov r8, 0", f"{head}:")
        for _ in range(self.r.choice((1, 1, 2))):
            if self.answers + 20 <= ANSWERS and OUT - self.at >= 600:
                self.statement()
        rounds = self.r.randrange(1, NAMES + 1)
        self.put("add r8, 1", f"jlt r8, {rounds}, {head}")
        if self.r.random() < 0.03:
            self.put("mov r8, 0", f"ja {head}")
        self.is_inside = False

    def write(self):
        skip = None
        for _ in range(self.r.choice((1, 2, 3, 4, 6, 10))):
            if self.answers + 20 > ANSWERS or OUT - self.at < 600:
                break
            if skip is None and self.r.random() < 0.15 and self.answers:
                skip = self.label()
                self.put("jslt r0, 0, " + skip if self.r.random() < 0.5 else "jsge r0, 0, " + skip)
            self.loop() if self.loops and self.r.random() < 0.6 else self.statement()
            if skip is not None and self.r.random() < 0.5:
                self.put(f"{skip}:")
                skip = None
        if skip is not None:
            self.put(f"{skip}:")
        self.put(f"mov r1, {self.at}", "call 13")
        if self.r.random() < 0.15:
            self.put(f"ldxdw r0, [r7+{8 * self.r.randrange(max(1, self.answers))}]")
        self.put("exit")
        return self.lines


def class_text(r, count, loops):
    lines = [".rules 3"]
    for n in range(count):
        lines += [f".method m{n:02} rw {IN} {OUT}", "mov r6, r1", "mov r7, r3", "mov r8, 0", "mov r0, 0", *Text(r, loops).write()]
    return "\n".join(lines) + "\n"


# Objects, inputs and limits at random.


def some_name(r):
    return r.choice((b"a", b"k%06d" % r.randrange(100000), b"\0", b"\0\0", b"\xff" * r.choice((1, 64)), r.randbytes(r.randrange(1, 65)),
        b"x%02d" % r.randrange(100), b"q" * 64))


def some_object(r):
    whole = Large()
    if r.random() < 0.05:
        return whole
    whole.is_there, whole.size = True, r.choice((0, 100, 4096, 4097, 20000, 70000, 1 << 22, 1 << 27, r.randrange(1 << 27)))
    for _ in range(r.choice((0, 3, 40))):
        at = r.randrange(whole.size + 1)
        whole.put(at, r.randbytes(min(r.choice((1, 100, 5000)), whole.size - at)))
    for kind, counts in ((XATTRS, (0, 1, 5, 30, 100)), (KEYS, (0, 1, 10, 1000, 100000))):
        form, count = (b"x%02d", b"k%06d")[kind], r.choice(counts)
        for n in range(count):
            whole.names[kind][form % n] = b"%d" % n
        for _ in range(r.choice((0, 5)) if count else 0):
            whole.names[kind][some_name(r)] = r.randbytes(r.choice((0, 1, 300, 4096)))
        whole.order[kind][:] = sorted(whole.names[kind])
    return whole


def some_input(r, whole):
    numbers = []
    for _ in range(NUMBERS):
        inside = r.randrange(whole.size + 1)
        near = r.choice((0, whole.size, inside, inside, inside, inside // BLOCK * BLOCK, inside // BLOCK * BLOCK, 1 << 16, (1 << 63) - 1, 0))
        numbers.append((near + r.choice((0, 0, 1, -1, 100, -100))) & model.MASK)
    names = []
    for _ in range(NAMES):
        kind, name = r.randrange(2), some_name(r)
        if whole.order[kind] and r.random() < 0.6:
            name = r.choice(whole.order[kind])
        if r.random() < 0.1:
            name = (name + b"\0")[:65] if r.random() < 0.5 else name[:-1]
        names.append(name)
    form = struct.pack(f"<{NUMBERS}Q", *numbers) + bytes(map(len, names))
    form = form.ljust(256, b"n") + b"".join(name.ljust(70, b"\0") for name in names)
    return form.ljust(IN, b"v")[: r.choice((IN, IN, IN, 900))]


def some_limits(r, whole):
    counts = []
    for kind in (XATTRS, KEYS):
        held = len(whole.names[kind])
        is_counted = held <= MOST[kind] and r.random() < 0.3
        counts.append(r.choice((0, held, held + 1, held + 2, MOST[kind], 5000)) if is_counted else ANY)
    lengths = [r.choice((64, 64, 64, r.randrange(1, 65))) for _ in range(2)]
    most = r.choice((1 << 27, 1 << 27, 1 << 31, (1 << 63) - 1, 65536, whole.size, whole.size + 50, 0))
    return (min(most, (1 << 63) - 1), *counts, *lengths)


class Tally:
    def __init__(self):
        self.calls = self.rounds = self.most = 0
        self.kinds, self.codes = {}, {}

    def count(self, kind):
        self.kinds[kind] = self.kinds.get(kind, 0) + 1


def want(is_so, *what):
    if not is_so:
        raise AssertionError(" ".join(map(str, what)))


class Caller:
    """The host: one class, and its calls."""

    def __init__(self, library, image, r, tally, budget):
        self.library, self.methods, self.r, self.tally = library, loops_of(image), r, tally
        self.last = None
        result, self.verified = library.open(image, budget)
        self.is_open = result == 0
        want(self.is_open or budget and result == 2, "the class is refused:", library.explain(image, budget))

    def learn_some(self, part, whole):
        """Something more, at random."""
        r = self.r
        for _ in range(r.randrange(4)):
            if whole.size:
                part.blocks.add(r.randrange(-(-whole.size // BLOCK)))
        for kind in (XATTRS, KEYS):
            for _ in range(r.randrange(3)):
                place = r.choice(whole.order[kind]) if whole.order[kind] and r.random() < 0.7 else some_name(r)
                self.learn_page(part, whole, kind, place, r.choice((1, 1, 3)))

    def learn_page(self, part, whole, kind, place, count):
        """The names from a place on, so many, if they fit."""
        found = whole.since(kind, place, count)
        if len(part.entries(kind, whole)) + len(found) > MOST[kind]:
            count, found = 1, found[:1]
        if len(part.entries(kind, whole)) + len(found) > MOST[kind]:
            return False
        part.learn(kind, place, found[-1] + b"\0" if len(found) == count else b"")
        return True

    def fetch(self, part, whole, spelled):
        """What a need names, and more at times; whether it fits."""
        r, kind = self.r, spelled[0]
        if kind == 1:
            first, count = struct.unpack_from("<QB", spelled, 1)
            want(len(spelled) == 10 and count and (first + count - 1) * BLOCK < whole.size, "blocks that aren't there", spelled.hex())
            more = r.choice((0, 0, 1, 8))
            part.blocks.update(b for b in range(first, first + count + more) if b * BLOCK < whole.size)
            return True
        place = spelled[3:]
        want(struct.unpack_from("<H", spelled, 1)[0] == len(place) <= 65, "a need", spelled.hex())
        if kind <= 3:
            if len(part.entries(kind - 2, whole)) == MOST[kind - 2] and place in whole.names[kind - 2]:
                return False
            part.learn(kind - 2, place, place + b"\0")
            return True
        return self.learn_page(part, whole, 5 - kind, place, r.choice((1, 1, 2, 5, 40)))

    def told(self, method, whole, part, limits, caller, data):
        """What a round should come to, and its run."""
        run = Run(*self.methods[method], whole, part, limits, caller, data)
        try:
            run.steps = run.go()
        except Spent:
            return ("answer", SPENT, run.budget, b"", b""), run
        except Needs as needs:
            return ("needs", needs.args[0]), run
        except Full:
            return ("full",), run
        code = model.signed(run.registers[0], 64)
        is_kept = code >= 0
        output = bytes(run.memory[model.OUTPUT][: run.length]) if is_kept else b""
        return ("answer", code, run.steps, output, b"".join(run.list) if is_kept else b""), run

    def found(self, method, whole, part, limits, caller, data):
        form = part.spelled(whole)
        self.last = [method, form, limits, caller, data]
        room = self.r.choice((0, 100, 1 << 16))
        result, answer, needed, output, edits = self.library.call_part(self.verified, method, form, caller, limits, data, room)
        if result == -11:
            return "needs", needed
        if result == -28:
            return ("full",)
        want(result == 0, "the call is refused:", result)
        return "answer", answer.code, answer.steps, output, edits

    def go(self, whole):
        r, part = self.r, Part()
        method, data = r.choice([*self.methods]), some_input(r, whole)
        limits, caller = some_limits(r, whole), r.randrange(1 << 32)
        if r.random() < 0.3:
            self.learn_some(part, whole)
        if r.random() < 0.2:  # nearly as many as a call keeps
            self.learn_page(part, whole, XATTRS, b"", r.choice((31, 32)))
        for kind in (XATTRS, KEYS):
            if limits[1 + kind] != ANY:
                part.learn(kind, b"", b"")
        needs = 0
        while True:
            told, run = self.told(method, whole, part, limits, caller, data)
            found = self.found(method, whole, part, limits, caller, data)
            self.tally.rounds += 1
            self.tally.count(f"need {told[1][0]}" if told[0] == "needs" else "spent" if told[1:2] == (SPENT,) else told[0])
            want(found == told, f"{method.decode()} answers {found}, not {told}")
            if told[0] != "needs":
                break
            needs += 1
            want(needs <= run.calls + run.removals, "more needs than calls of helpers, up to this one, and removals")
            if not self.fetch(part, whole, told[1]):
                break
        self.tally.calls += 1
        self.tally.most = max(self.tally.most, needs)
        if told[0] != "answer":
            return
        self.more(told, method, whole, part, limits, caller, data)
        self.after(run, whole, found)

    def more(self, told, method, whole, part, limits, caller, data):
        """Where more is known the answer is the same, or there is no room for a name."""
        if self.r.random() < 0.3:
            self.learn_some(part, whole)
            again = self.found(method, whole, part, limits, caller, data)
            want(again in (told, ("full",)), f"{method.decode()} with more answers {again}, not {told}")

    def after(self, run, whole, found):
        """Makes the edits, and looks at what they touched."""
        _, code, _, _, edits = found
        if code < 0:
            return
        touched = {0, max(0, run.size - 1) // BLOCK}
        for place, new in run.ops:
            touched |= {place // BLOCK, (place + len(new or b"")) // BLOCK}
        touched = {b for b in touched if b * BLOCK < run.size}
        wanted = {b: run.byte_range(b * BLOCK, min((b + 1) * BLOCK, run.size)) for b in touched}
        make(whole, edits)
        want((whole.is_there, whole.size) == (run.is_there, run.size), "presence or size after")
        for b, text in wanted.items():
            want(whole.read(b * BLOCK, min((b + 1) * BLOCK, whole.size)) == text, "block", b, "after")
        for kind in (XATTRS, KEYS):
            for name, value in run.changed[kind].items():
                want(whole.names[kind].get(name) == value, "name", name, "after")
            if run.is_new:
                names = {name: value for name, value in run.changed[kind].items() if value is not None}
                want(whole.names[kind] == names, "names after a removal")


def tell(call, text):
    """The call that differs, and its method."""
    method, form, limits, caller, data = call
    print(".method " + text.split(".method ")[1 + int(method[1:])])
    print(f"part {form.hex()}\nlimits {limits} caller {caller} input {data.hex()}", flush=True)


def main(words):
    asked = argparse.ArgumentParser()
    asked.add_argument("library")
    asked.add_argument("radoscls")
    asked.add_argument("--seconds", type=float, default=10)
    asked.add_argument("--seed", type=int, default=1)
    asked.add_argument("--loops", action="store_true")
    asked = asked.parse_args(words)
    r, tally, end = random.Random(asked.seed), Tally(), time.monotonic() + asked.seconds
    library, whole = host.Library(asked.library), some_object(r)
    with tempfile.TemporaryDirectory() as folder:
        text, image = os.path.join(folder, "text"), os.path.join(folder, "image")
        while time.monotonic() < end:
            with open(text, "w") as file:
                file.write(class_text(r, 8 if asked.loops else 32, asked.loops))
            budget = r.choice((500, 3000, 20000, 1 << 17)) if asked.loops else None
            heads = ["--heads", "--budget", str(budget)] if asked.loops else []
            subprocess.run([asked.radoscls, "asm", text, image, *heads], check=True, stdout=subprocess.DEVNULL)
            caller = Caller(library, open(image, "rb").read(), r, tally, budget)
            if not caller.is_open:  # (what is found for a loop may be too little)
                verdict = subprocess.run([asked.radoscls, "verify", image, "--loops"], capture_output=True, text=True).stdout
                want(verdict == library.explain(open(image, "rb").read(), budget) + "\n", "another verdict:", verdict)
                tally.count("refused class")
            for _ in range((100 if asked.loops else 500) if caller.is_open else 0):
                if time.monotonic() >= end:
                    break
                if r.random() < 0.02:
                    whole = some_object(r)
                try:
                    caller.go(whole)
                except AssertionError:
                    if caller.last:
                        tell(caller.last, open(text).read())
                    raise
            library.close(caller.verified)
    kinds = ", ".join(f"{tally.kinds[kind]} of {kind}" for kind in sorted(tally.kinds))
    print(f"{tally.calls} calls on parts{' with loops' if asked.loops else ''}, seed {asked.seed}: {kinds}; at most {tally.most} needs in one")


if __name__ == "__main__":
    sys.exit(main(sys.argv[1:]))

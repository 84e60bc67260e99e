"""What a call asks of an object, round by round, and what it answers: written after docs/CEPH.md, over the interpreter
of model.py.

An object is a whole one here; what isn't known yet of it a run doesn't look at, but stops.
"""

import model

BLOCK, BLOCKS, SMALL = 4096, 1024, 65536
ROUNDS, JUMPS = 16, 6
PAGES, READS = (16, 64, 256), (1, 16, 64, 256)
MOST = {"xattrs": model.XATTR_LIMIT, "keys": model.KEY_LIMIT}
WHY = {
    "rounds": "over 16 rounds",
    "names": "over 32 xattrs or 1024 keys in a call",
    "data": "over 4 MiB of data in a call",
    "name": "a name of over 64 bytes",
    "value": "a value of over 4096 bytes",
}


class Refused(Exception):
    """A call that is refused: by what number, and what the log says more."""

    def __init__(self, result, why=None):
        super().__init__(result, why)
        self.result, self.why = result, WHY.get(why)


class Needs(Exception):
    """What a run needs: of data the first and the last block; of xattrs or keys a name, or the least from a place."""


class Full(Exception):
    """A run sets a name more than there is room for."""


def after(name):
    return name + b"\0"


def within(intervals, name):
    return any(low <= name and (high is None or name < high) for low, high in intervals)


def gap(intervals, place):
    """The first place from there on that no interval has, or None."""
    for low, high in sorted(intervals, key=lambda each: each[0]):
        if low <= place and (high is None or place < high):
            if high is None:
                return None
            place = high
    return place


class Run(model.Run):
    """A run of a method that knows of an object what a part has."""

    def __init__(self, method, whole, caller, data, part, limit):
        super().__init__(method, whole, caller, data, limit)
        self.blocks = set(part.blocks)
        self.low = -(-len(whole.data) // BLOCK) if whole else 0
        everything = [(b"", None)]
        self.intervals = {kind: list(part.intervals[kind]) if whole else everything for kind in MOST}
        self.staged = {kind: part.entries(kind) if whole else set() for kind in MOST}

    def read(self, place, to, room, *rest):
        end = min(place + room, len(self.whole.data)) if self.whole else 0
        met = range(place // BLOCK, -(-end // BLOCK)) if place < end else ()
        unknown = [b for b in met if b not in self.blocks and b < self.low]
        if unknown:
            raise Needs("data", unknown[0], unknown[-1])
        return super().read(place, to, room, *rest)

    def truncate(self, size, *rest):
        result = super().truncate(size, *rest)
        if result == 0:
            self.low = min(self.low, -(-size // BLOCK))
        return result

    def remove(self, *rest):
        result = super().remove(*rest)
        if result == 0:
            self.low = 0
            self.intervals = {kind: [(b"", None)] for kind in MOST}
            self.staged = {kind: set() for kind in MOST}
        return result

    def is_named(self, start, length):
        return 1 <= length <= model.NAME_LIMIT and self.whole is not None and self.load(start, length)

    def know(self, kind, start, length):
        name = self.is_named(start, length)
        if name and name not in self.staged[kind] and not within(self.intervals[kind], name):
            raise Needs(kind, "name", name)
        return name

    def get(self, part, start, length, to, room):
        self.know(part, start, length)
        return super().get(part, start, length, to, room)

    def unset(self, part, start, length):
        name = self.know(part, start, length)
        result = super().unset(part, start, length)
        if result == 0:
            self.staged[part].discard(name)
        return result

    def set(self, part, most, start, length, value, size):
        if 1 <= length <= model.NAME_LIMIT and size <= model.VALUE_LIMIT:
            name = self.load(start, length)
            if name not in self.staged[part] and len(self.staged[part]) >= MOST[part]:
                raise Full()
            self.staged[part].add(name)
        return super().set(part, 1 << 64, start, length, value, size)

    def next(self, part, start, length, to, room):
        if length <= model.NAME_LIMIT and self.whole is not None:
            low = after(self.load(start, length)) if length else b""
            least = min((name for name in self.staged[part] if name >= low), default=None)
            place = gap(self.intervals[part], low)
            if place is not None and (least is None or place < least):
                raise Needs(part, "place", place)
        return super().next(part, start, length, to, room)


def misfit(name, value):
    return "name" if len(name) > model.NAME_LIMIT else "value" if len(value) > model.VALUE_LIMIT else None


class Part:
    """What a call was told so far, and what the OSD was asked for it: `trace`."""

    def __init__(self, whole, parts, behind, is_made):
        self.whole, self.behind, self.is_made = whole, behind, is_made
        self.blocks, self.intervals, self.trace = set(), {"xattrs": [], "keys": []}, []
        self.is_sparing, self.reads, self.pages, self.jumps = False, 0, 0, 0
        if whole and "xattrs" in parts and len(whole.xattrs) <= MOST["xattrs"] and self.all_fit(whole.xattrs):
            self.intervals["xattrs"] = [(b"", None)]
        if is_made:
            self.intervals["keys"] = [(b"", None)]

    @staticmethod
    def all_fit(entries):
        return not any(misfit(*each) for each in entries.items())

    def of(self, kind):
        """The object's entries. Behind another step an object that was made has none."""
        return getattr(self.whole, kind)

    def entries(self, kind):
        return {name for name in self.of(kind) if within(self.intervals[kind], name)}

    def spare(self):
        if self.is_sparing:
            raise Refused(-7, "names")
        self.is_sparing = True
        self.intervals = {"xattrs": [], "keys": [(b"", None)] if self.is_made else []}

    def learn(self, kind, low, high, names):
        if len(self.entries(kind) | set(names)) > MOST[kind]:
            raise Refused(-7, "names")
        self.intervals[kind].append((low, high))

    def fetch(self, kind, what, where):
        if kind == "data":
            self.fetch_blocks(what, where)
        elif what == "name":
            self.fetch_name(kind, where)
        else:
            self.fetch_page(kind, where)

    def fetch_blocks(self, first, last):
        if self.behind:
            raise Refused(-114)
        size, count = len(self.whole.data), last - first + 1
        end, room = -(-size // BLOCK), BLOCKS - len(self.blocks)
        if count > room:
            raise Refused(-7, "data")
        if self.reads and size <= SMALL:
            first, count = 0, end
        while count < min(READS[min(self.reads, 3)], room, end - first) and first + count not in self.blocks:
            count += 1
        self.reads += 1
        self.trace.append(f"read {first * BLOCK} {min(count * BLOCK, size - first * BLOCK)}")
        self.blocks |= set(range(first, first + count))

    def jump(self):
        """A need of keys apart from the pages before; whether all keys are known then."""
        self.jumps += 1
        if self.jumps != JUMPS or self.is_sparing:
            return False
        self.trace.append(f"keys - {MOST['keys']}")
        if len(self.whole.keys) > MOST["keys"] or not self.all_fit(self.whole.keys):
            return False
        self.intervals["keys"] = [(b"", None)]
        return True

    def fetch_name(self, kind, name):
        if kind == "keys":
            if self.jump():
                return
            self.trace.append(f"key {name.hex()}")
        value = self.of(kind).get(name)
        if value is not None and misfit(name, value):
            raise Refused(-7, misfit(name, value))
        self.learn(kind, name, after(name), () if value is None else [name])

    def fetch_page(self, kind, place):
        goes_on = kind == "keys" and any(high == place for _, high in self.intervals[kind])
        if kind == "keys" and not goes_on and self.jump():
            return
        self.pages += goes_on
        most = 1 if self.is_sparing else PAGES[min(self.pages, 2) if goes_on else 0]
        most = min(most, max(MOST[kind] - len(self.entries(kind)), 1))
        if kind == "keys":
            self.trace.append(f"keys {place[:-1].hex() or '-'} {most}")
        above = sorted(name for name in self.of(kind) if name >= place)
        page, wrong = above[:most], [misfit(name, self.of(kind)[name]) for name in above[:most]]
        at = next((at for at, each in enumerate(wrong) if each), None)
        if at == 0:
            raise Refused(-7, wrong[0])
        page = page[:at]
        self.learn(kind, place, after(page[-1]) if len(page) < len(above) else None, page)


def call(method, whole, caller, data, behind=False, limit=(1 << 31) - 1, is_made=False):
    """The answer, and what the OSD was asked for it behind presence, size and xattrs."""
    part = Part(whole, model.parts_of(method), behind, is_made)
    for number in range(ROUNDS):
        try:
            return model.answer_of(Run(method, whole, caller, data, part, limit), whole), part.trace
        except (Needs, Full) as stopped:
            if number + 1 == ROUNDS:
                raise Refused(-7, "rounds") from None
            part.spare() if isinstance(stopped, Full) else part.fetch(*stopped.args)
    raise AssertionError

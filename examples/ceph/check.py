#!/usr/bin/env python3
"""Compares Ceph's classes in this folder with models of them in Python.

    check.py [RADOSCLS [CALLS [CLASS ..]]]

It compiles each class by tools/radoscls-cc, and makes CALLS random calls of it (2000), some of them malformed and some
upon values that aren't the class's, or objects that have no room left, and calls on each bound and past it. Each is
made by `radoscls run --loops` upon the object that the model has then; code, output and the whole object after it are
compared with the model's. The status is 0 if nothing differs."""
import base64, math, os, random, re, struct, subprocess, sys, tempfile
from concurrent.futures import ThreadPoolExecutor

HERE = os.path.dirname(os.path.abspath(__file__))
TOP = os.path.join(HERE, "..", "..")
ENOENT, E2BIG, EIO, EBUSY, EEXIST, EINVAL, ENOSPC, ERANGE, ENODATA, EBADMSG, EOPNOTSUPP, ECANCELED = \
    2, 7, 5, 16, 17, 22, 28, 34, 61, 74, 95, 125
WITH_OBJECT = 55
XATTRS, KEYS = 32, 1024  # that an object may have
VALUE = 4096  # the most bytes of a value
CLIENTS = [1, 2, 3]  # who call
# How long a lock is held: seconds and nanoseconds.
DURATIONS = [(0, 1), (5, 0), (5, 999999999), (0, 1000000000), (1000, 4294967295), (4294967295, 0)]


class Fail(Exception):
    """A negative code."""


class Object:
    most_xattrs, most_keys = XATTRS, KEYS  # None where there is no such limit

    def __init__(self):
        self.data, self.xattrs, self.keys = b"", {}, {}

    def copy(self):
        other = Object()
        other.data, other.xattrs, other.keys = self.data, dict(self.xattrs), dict(self.keys)
        return other

    def set(self, name, value):
        """An xattr."""
        if name not in self.xattrs and len(self.xattrs) == self.most_xattrs:
            raise Fail(-ENOSPC)
        self.xattrs[name] = value

    def set_key(self, name, value):
        if name not in self.keys and len(self.keys) == self.most_keys:
            raise Fail(-ENOSPC)
        self.keys[name] = value


# Ceph's encoding


class Decoder:
    def __init__(self, data, limit):
        self.data, self.at = data, 0
        if len(data) > limit:
            raise Fail(-E2BIG)

    def bytes(self, size):
        if self.at + size > len(self.data):
            raise Fail(-EINVAL)
        self.at += size
        return self.data[self.at - size:self.at]

    def number(self, form):
        return struct.unpack("<" + form, self.bytes(struct.calcsize(form)))[0]

    def string(self, most):
        size = self.number("I")
        if self.at + size > len(self.data):
            raise Fail(-EINVAL)
        if size > most:
            raise Fail(-E2BIG)
        return self.bytes(size)

    def count(self, most):
        count = self.number("I")
        if count > most:
            raise Fail(-E2BIG)
        return count

    def start(self, version):
        its, oldest, size = self.number("B"), self.number("B"), self.number("I")
        if oldest > version or self.at + size > len(self.data):
            raise Fail(-EINVAL)
        return its, self.at + size

    def finish(self, part):
        if self.at > part[1]:
            raise Fail(-EINVAL)
        self.at = part[1]


def string(text):
    return struct.pack("<I", len(text)) + text


def versioned(body, version=1, oldest=1):
    return bytes((version, oldest)) + string(body)


def stored(value, limit, read):
    """What is kept in an xattr; -EIO if it is malformed."""
    if len(value) > limit:
        raise Fail(-E2BIG)
    try:
        return read(Decoder(value, limit))
    except Fail as fail:
        raise Fail(-EIO if fail.args[0] == -EINVAL else fail.args[0]) from None


def within(value):
    """What is to be kept, if it isn't too long."""
    if len(value) > VALUE:
        raise Fail(-E2BIG)
    return value


def there(object):
    if object is None:
        raise Fail(-ENOENT)
    return object


# The environment of a call: xattrs, as an installed class sees them, or as they are put here.


def with_object(object):
    """A method that asks for an object, where there is none."""
    if object is None:
        raise Fail(-WITH_OBJECT)
    return object


def time_of(object):
    """Nanoseconds, or None."""
    now = struct.unpack("<q", object.xattrs.get(b"\0time", b"\xff" * 8))[0]
    return None if now < 0 else now


def address_of(object):
    """In Ceph's encoding, or none."""
    address = object.xattrs.get(b"\0address", b"")
    return address if len(address) <= 64 else b""


def some_entry(r):
    """An entry, and its value."""
    socket = r.choice((struct.pack("<H", 2) + r.randbytes(14), struct.pack("<H", 10) + r.randbytes(26),
        struct.pack("<HHI", 2, 0, 0x100007F) + bytes(8)))
    address = b"\1" + versioned(struct.pack("<III", r.randrange(1, 4), r.choice((0, 1, 1 << 31, (1 << 32) - 1)),
        len(socket)) + socket)
    return r.choice(((b"\0time",
        struct.pack("<q", r.choice((0, 1, 999999999, 10**9, r.randrange(20 * 10**9), r.randrange(20 * 10**9), -1)))),
        (b"\0address", address), (b"\0random", r.randbytes(16)), (b"\0made", b"")))


# hello


def signed(object, caller):
    """Who calls, as Ceph writes it."""
    address, who = address_of(object), b"client.%d" % caller
    if len(address) < 35 or address[19] != 2:
        return who
    port, *parts = struct.unpack_from(">HBBBB", address, 21)
    return who + b" %s%d.%d.%d.%d:%d/%d" % ({1: b"v1:", 2: b"v2:"}.get(address[7], b""), *parts, port,
        *struct.unpack_from("<I", address, 11))


def hello(object, caller, method, given):
    greeting = b"Hello, " + (given or b"world") + b"!"
    if method in ("say_hello", "record_hello") and len(given) > 100:
        raise Fail(-EINVAL)
    if method == "say_hello":
        return object, 0, greeting
    if method in ("replay", "bad_reader"):
        data = there(object).data[:1100 if method == "replay" else 100]
        return object, 0 if method == "replay" else len(data), data
    if method == "record_hello":
        if b"\0made" not in with_object(object).xattrs:
            raise Fail(-EEXIST)
        object.data = greeting + object.data[len(greeting):]
        object.set(b"said_by", signed(object, caller))
        return object, 0, b""
    if method == "turn_it_to_11":
        if given:
            raise Fail(-EINVAL)
        object = object or Object()
        object.data = bytes(c - 32 if 97 <= c <= 122 else c for c in object.data[:1100])
        object.set(b"amplified_by", signed(object, caller))
        return object, 0, b""
    object = object or Object()
    object.set(b"foo", b"bar")
    if given and method != "write_too_much_return_data":
        raise Fail(-EINVAL)
    if method == "write_too_much_return_data":
        return object, 42, b"you should not see this because it is toooooo long. " * 10
    return object, 42, b"you might see this"


def hello_call(r):
    method = r.choice(["bad_reader", "record_hello", "replay", "say_hello", "turn_it_to_11", "write_return_data",
        "write_too_much_return_data",
        "writes_dont_return_data"])
    name = bytes(r.choice(b"abcxyz {`@[AZ\xe9\xfa\x7a") for _ in range(r.choice((0, 0, 0, 3, 8, 99, 100, 101, 300))))
    return method, name if method in ("record_hello", "say_hello") or r.random() < 0.1 else b""


# version


def read_version(d):
    part = d.start(1)
    number, tag = d.number("Q"), d.string(VALUE)
    d.finish(part)
    return number, tag


def write_version(number, tag):
    return versioned(struct.pack("<Q", number) + string(tag))


def version(object, caller, method, given):
    name, kept = b"ceph.objclass.version", (0, b"")
    if method == "set":
        d = Decoder(given, 4096)
        part = d.start(1)
        kept = read_version(d)
        d.finish(part)
    else:
        conds = []
        if method != "read":
            d = Decoder(given, 4096)
            part = d.start(1)
            read_version(d)
            for _ in range(d.number("I")):
                its = d.start(1)
                conds.append((read_version(d), d.number("I")))
                d.finish(its)
            d.finish(part)
        if object and name in object.xattrs:
            kept = stored(object.xattrs[name], VALUE, read_version)
        elif method.startswith("inc"):
            drawn = with_object(object).xattrs.get(b"\0random")
            kept = 1, base64.b64encode(drawn + drawn[:2]) if drawn else bytes(97 + (caller >> 4 * (7 - i % 8) & 15)
                for i in range(24))
        for (number, tag), cond in conds:
            if not {1: kept == (number, tag), 2: kept[0] > number, 3: kept[0] >= number, 4: kept[0] < number,
                5: kept[0] <= number,
                    6: kept[1] == tag, 7: kept[1] != tag}.get(cond, True):
                raise Fail(-ECANCELED)
        if method == "check_conds":
            return object, 0, b""
        if method == "read":
            return object, 0, versioned(write_version(*kept))
        kept = kept[0] + 1 & (1 << 64) - 1, kept[1]
    object = object or Object()
    object.set(name, within(write_version(*kept)))
    return object, 0, b""


def version_call(r):
    def one():
        long = r.choice((65, 300, 4000)) if r.random() < 0.1 else 1
        tag = r.choice((b"", b"a", b"ab", b"tag-of-24-characters-all", b"t" * 63, b"t" * 64, b"t" * 64, b"t" * long))
        more = b"later" * (r.random() < 0.03)
        body = struct.pack("<Q", r.choice((0, 1, 2, 3, (1 << 64) - 1))) + string(tag) + more
        return versioned(body, 1 + (r.random() < 0.05))
    method = r.choice(["check_conds", "inc", "inc_conds", "read", "set"])
    if method == "set":
        return method, versioned(one())
    count = r.choice((0, 0, 1, 1, 1, 2, 3, 5, 6, 40 if r.random() < 0.2 else 1))
    conds = [versioned(one() + struct.pack("<I", r.choice((r.randrange(9), 0)))) for _ in range(count)]
    return method, b"" if method == "read" else versioned(one() + struct.pack("<I", count) + b"".join(conds))


def version_bounds():
    """Values, and calls by client 1 upon them: on a bound, and past it."""
    some = lambda count, cond, last=b"": versioned(write_version(0, b"") + struct.pack("<I", count)
        + (versioned(write_version(7, b"") + struct.pack("<I", cond))) * (count - 1)
        + versioned(write_version(7, last) + struct.pack("<I", cond)))
    for count, last in ((64, b"x"), (145, b""), (145, b"y" * 8), (145, b"y" * 9)):
        for cond in (1, 3, 7):
            for value in (None, write_version(7, b""), write_version(8, b"y" * 8)):
                yield value, "check_conds", some(count, cond, last)
        yield write_version(7, b""), "inc_conds", some(count, 5, last)
    for long in (4077, 4078):
        value = write_version(7, b"z" * long)
        yield value, "read", b""
        yield value, "inc", some(1, 0)
        yield value, "inc_conds", some(1, 6, b"z" * 4000)
    for long in (4071, 4072, 4073):
        yield None, "set", versioned(write_version(9, b"z" * long))


# refcount


def read_refs(d):
    part = d.start(2)
    refs, retired = [], []
    for _ in range(d.number("I")):
        refs.append(d.string(VALUE))
        d.number("B")
    if part[0] >= 2:
        retired = [d.string(VALUE) for _ in range(d.number("I"))]
    d.finish(part)
    return refs, retired


def write_refs(refs, retired, its=2):
    body = struct.pack("<I", len(refs)) + b"".join(string(tag) + b"\1" for tag in sorted(refs))
    if its >= 2:
        body += struct.pack("<I", len(retired)) + b"".join(string(tag) for tag in sorted(retired))
    return versioned(body, its)


def keep_refs(object, refs, retired):
    object.set(b"refcount", within(write_refs(refs, retired)))
    return object, 0, b""


def refcount(object, caller, method, given):
    d = Decoder(given, 4096)
    part = d.start(1)
    if method == "set":
        refs = [d.string(VALUE) for _ in range(d.count(128))]
        d.finish(part)
        if not refs:
            return there(object) and None, 0, b""
        return keep_refs(object or Object(), set(refs), [])
    tag = d.string(VALUE) if method != "read" else b""
    is_implicit = d.number("B") != 0
    d.finish(part)
    there(object)
    refs, retired = [b""] if is_implicit else [], []
    if b"refcount" in object.xattrs:
        refs, retired = stored(object.xattrs[b"refcount"], VALUE, read_refs)
    if method == "get":
        return keep_refs(object, {*refs, tag}, retired)
    if method == "read":
        return object, 0, versioned(struct.pack("<I", len(refs)) + b"".join(map(string, refs)))
    if not refs:
        raise Fail(-EINVAL)
    gone = tag if tag in refs else b"" if is_implicit and b"" in refs else None
    if gone is None or tag in retired:
        return object, 0, b""
    if len(refs) == 1:
        return None, 0, b""
    return keep_refs(object, [one for one in refs if one != gone], retired + [tag])


TAGS = [b"", b"a", b"ab", b"abcdefgh", b"abcdefghi", b"b", b"\xff", b"c" * 63, b"c" * 64, b"c" * 63 + b"d", b"\0",
    b"e" * 30, b"f" * 300]
MANY_TAGS = TAGS + [b"%d" % n for n in range(140)]


def refcount_call(r):
    method = r.choice(["get", "get", "put", "put", "read", "set"])
    tag, implicit = r.choice(TAGS), bytes([r.randrange(2)])
    if method == "set":
        tags = r.choices(MANY_TAGS, k=r.choice((0, 1, 2, 4, 8, 9, 9, 64, 100, 127, 128, 129)))
        return method, versioned(struct.pack("<I", len(tags)) + b"".join(map(string, tags)))
    if r.random() < 0.03:
        tag = b"f" * r.choice((65, 1000, 3000, 4085, 4086))
    return method, versioned(implicit if method == "read" else string(tag) + implicit, 1 + (r.random() < 0.05))


# cmpomap


def compared(mode, comparison, given, value):
    """1, 0, -EINVAL, or -EIO."""
    if mode == 2 and len(given) >= 8:
        if 0 < len(value) < 8:
            return -EIO
        given, value = struct.unpack("<Q", given[:8])[0], struct.unpack("<Q", value[:8])[0] if value else 0
    elif mode != 1:
        return -EINVAL
    return {1: given == value, 2: given != value, 3: given > value, 4: given >= value, 5: given < value,
        6: given <= value}.get(comparison, -EINVAL)


def cmpomap(object, caller, method, given):
    d = Decoder(given, 32768)
    part = d.start(1)
    mode, comparison, pairs, other = d.number("B"), d.number("B"), [], None
    for _ in range(d.count(256)):
        pairs.append((d.string(64), d.string(VALUE)))
    if method != "cmp_rm_keys" and d.number("B"):
        other = d.string(VALUE)
    d.finish(part)
    for key, value in pairs:
        now = object.keys.get(key) if object else None
        now = other if now is None else now
        result = -ENODATA if now is None else int(compared(mode, comparison, value, now))
        if method == "cmp_vals":
            if result <= 0:
                raise Fail(-ECANCELED if result in (0, -ENODATA) else result)
        elif result < 0 and result not in (-ENODATA, -EIO):
            raise Fail(result)
        elif result == 1 and method == "cmp_rm_keys":
            del object.keys[key]
        elif result == 1:
            if not key:
                raise Fail(-EINVAL)
            object = object or Object()
            object.set_key(key, value)
    return object, 0, b""


def operation(mode, comparison, pairs, other=None):
    """The input: `other` is the optional value, or b"" where there is none."""
    body = bytes((mode, comparison)) + struct.pack("<I", len(pairs)) + b"".join(string(key) + string(value) for key,
        value in pairs)
    return versioned(body + (b"\0" if other is None else b"\1" + string(other) if other else b""))


def cmpomap_call(r):
    method = r.choice(["cmp_rm_keys", "cmp_set_vals", "cmp_set_vals", "cmp_vals"])

    def value():
        long = r.choice((33, 4096, 4097)) if r.random() < 0.1 else 1
        return r.choice((b"", b"a", b"ab", b"abcdefgh", b"abcdefghi", b"\xff", b"v" * 32,
            struct.pack("<Q", r.randrange(4)),
            struct.pack("<Q", 1 << 63), b"1234567", b"v" * long))
    pool = [b"k", b"key", b"k" * 64, b"a", b"b", b"c", b"d", b"k" * 65 if r.random() < 0.05 else b"e"]
    keys = sorted(r.sample(pool, r.choice((0, 1, 1, 2, 3, 6, 7))) + [b""] * (r.random() < 0.02))
    mode = r.choice((1, 1, 2, 2, 2, 0 if r.random() < 0.1 else 2))
    comparison = r.choice((1, 2, 3, 4, 5, 6, 7 if r.random() < 0.1 else 1))
    other = r.choice((None, b"x", struct.pack("<Q", r.randrange(4)), value() or b"y"))
    other = b"" if method == "cmp_rm_keys" else other
    return method, operation(mode, comparison, [(key, value()) for key in keys], other)


def cmpomap_bounds():
    """Objects, and calls upon them: with as many keys as a call may have, and more; with long values."""
    full = Object()
    for count in (64, 256, 257):
        keys = [b"%04d" % n for n in range(count)]
        full.keys = {key: b"w" * 20 for key in keys}
        for value in (b"w" * 20, b"w" * 21, b"w" * (100 if count < 200 else 115)):
            pairs = [(key, value) for key in keys]
            yield full.copy(), "cmp_vals", operation(1, 4, pairs)
            yield full.copy(), "cmp_vals", operation(1, 1, pairs)
            yield full.copy(), "cmp_set_vals", operation(1, 3, pairs)
            yield Object(), "cmp_set_vals", operation(1, 3, pairs, b"a")
            yield full.copy(), "cmp_rm_keys", operation(1, 3, pairs, b"")
    full.keys = {b"k%d" % n: b"v" * 4096 for n in range(7)}
    for size in (4095, 4096, 4097):
        for last in (0, 1):
            pairs = [(key, b"v" * (size - 1) + (b"w" if last else b"v")) for key in full.keys]
            yield full.copy(), "cmp_vals", operation(1, 3, pairs)
            yield full.copy(), "cmp_set_vals", operation(1, 4, pairs)
            yield full.copy(), "cmp_rm_keys", operation(1, 2, pairs, b"")
    for size in (3998, 3999):
        pairs = [(b"k%d" % n, b"v" * (4096 if n < 7 else size)) for n in range(8)]
        yield full.copy(), "cmp_set_vals", operation(1, 1, pairs, b"u")


# numops


NUMBER = re.compile(rb"[-+]?([0-9]+\.?[0-9]*|\.[0-9]+)([eE][-+]?[0-9]+)?")
LEAST = 2.0 ** -1022


def usable(number, is_zero):
    """A double, if it isn't one of those that the class hasn't: infinite ones, and those with fewer than 53 bits."""
    if is_zero or LEAST <= abs(number) < math.inf:
        return number
    raise Fail(-ERANGE)


def parsed(text, wrong):
    if text and not NUMBER.fullmatch(text):
        raise Fail(-wrong)
    return usable(float(text or b"0"), not re.search(rb"[1-9]", re.split(rb"[eE]", text)[0]))


def numops(object, caller, method, given):
    d = Decoder(given, 256)
    key, text = d.string(64), d.string(64)
    y, value = parsed(text, EINVAL), object.keys.get(key, b"") if object else b""
    if not key:
        raise Fail(-EINVAL)
    if len(value) > 64:
        raise Fail(-EBADMSG)
    x = parsed(value, EBADMSG)
    result = usable(x + y, x == -y) if method == "add" else usable(x * y, not (x and y))
    object = object or Object()
    object.set_key(key, b"%.10g" % result)
    return object, 0, b""


def numops_call(r):
    digits = lambda n: "".join(r.choice("0123456789") for _ in range(n))
    sign = r.choice(("", "", "-", "+"))
    text = r.choice((lambda: str(r.randrange(-20, 20)), lambda: digits(r.randrange(1, 13)), lambda: sign
        + digits(r.randrange(1, 6)) + "." + digits(r.randrange(6)),
        lambda: sign + digits(1) + "." + digits(r.randrange(1, 30)) + "e" + r.choice(("", "+", "-"))
        + digits(r.randrange(1, 4)),
        lambda: "0." + digits(9), lambda: digits(r.choice((16, 17, 18, 40, 63, 64, 65))),
        lambda: "9" * r.choice((10, 11, 12)),
        lambda: repr(r.choice((0.1, 0.2, 0.3, 2.0**53, 2.0**-1022, 1.7976931348623157e308)) * r.choice((1, -1, 1.5,
        1 / 3))),
        lambda: "0." + "0" * r.randrange(50) + digits(3) + "e" + r.choice(("-", "")) + digits(3), lambda: r.choice(
            ("", "-", ".", "1.", ".5", "+7", "1e", "e5", "1e+", "--1", "-+1", "1e-+1", "1.2.3", "x", "1e100", "1 ",
            "0", "-0", "1e99", "-1e-99", "1e5x", "9999999999.5",
                "1e308", "1e309", "2e-308", "3e-308", "0e999", "1e-999", "1e99999999999", "inf", "nan", "0x1p3",
                "9007199254740993"))))()
    key = r.choice((b"n", b"m", b"k" * 64, b"" if r.random() < 0.05 else b"n", b"k" * 65 if r.random() < 0.05
        else b"m"))
    return r.choice(("add", "add", "mul")), string(key) + string(text.encode())


# Of each two neighbours one is the other's half way to the next double, or just past it; or ten digits end in a tie.
TIES = [b"9007199254740993", b"9007199254740993.0000000000000000001", b"9007199254740992.9999999999999999999",
    b"9007199254740995", b"1.00000000050000000000000000001",
    b"1.0000000005", b"1.0000000015", b"12345678905", b"12345678915", b"1234567890.5", b"99999999995",
    b"9999999999.4999999", b"2.2250738585072014e-308",
    b"2.2250738585072011e-308", b"1.7976931348623157e308", b"1.7976931348623159e308", b"4.9e-324", b"1" * 64,
    b"9" * 64, b"." + b"0" * 62 + b"9", b"123456789e300",
    b"-123456789e-300", b"9" * 60 + b"e240", b"9" * 59 + b"e-366", b"5e-5", b"0.00012345678905", b"123456.78905",
    b"-0", b"0"]


def numops_bounds():
    """Numbers that are hard to round, or as large or long as can be: stored, and given."""
    for n, one in enumerate(TIES):
        for other in (TIES[n - 1], b"0", b"1", b"1e-10", b"-" + one.strip(b"-")):
            stored = Object()
            stored.keys = {b"n": one}
            yield stored, "mul" if other == b"1" or n % 2 else "add", string(b"n") + string(other)


# lock


def read_lock(d):
    part, lockers = d.start(1), {}
    for _ in range(d.number("I")):
        _, oldest, size = d.number("B"), d.number("B"), d.number("I")
        key = d.number("B"), d.number("q"), d.string(VALUE)
        if oldest > 1 or size != 13 + len(key[2]):
            raise Fail(-EINVAL)
        at = d.at
        its = d.start(1)
        d.number("Q")
        d.finish(its)
        lockers[key] = d.data[at:d.at]
    kind, tag = d.number("B"), d.string(VALUE)
    d.finish(part)
    return lockers, kind, tag


def write_lock(lockers, kind, tag):
    body = struct.pack("<I", len(lockers))
    for key in sorted(lockers):
        body += versioned(struct.pack("<Bq", *key[:2]) + string(key[2])) + lockers[key]
    return versioned(body + bytes([kind]) + string(tag))


def keep_lock(object, name, lockers, kind, tag):
    object.set(name, within(write_lock(lockers, kind, tag)))
    return object, 0, b""


def expiry(now, seconds, rest):
    """When a lock of a duration expires, as Ceph adds it up in 32 bits."""
    most, second = (1 << 32) - 1, 10**9
    seconds, rest = min(now // second + seconds, most), now % second + rest & most
    if rest > second:
        seconds, rest = min(seconds + rest // second, most), rest % second
    return seconds, rest


def live_lockers(lockers, now):
    """Those that haven't expired."""
    moment = None if now is None else divmod(now, 10**9)
    expires = lambda value: struct.unpack_from("<II", value, 6)
    return {key: value for key, value in lockers.items() if expires(value) == (0, 0) or moment is None
        or expires(value) >= moment}


def lock(object, caller, method, given):
    if method == "list_locks":
        names = [name[5:] for name in sorted(there(object).xattrs) if name.startswith(b"lock.")]
        return object, 0, versioned(struct.pack("<I", len(names)) + b"".join(map(string, names)))
    d = Decoder(given, 4096)
    part = d.start(1)
    name, kind, key, tag, text, flags, duration = d.string(59), 1, None, b"", b"", 0, (0, 0)
    if method in ("assert_locked", "lock", "set_cookie"):
        kind, cookie, tag = d.number("B"), d.string(VALUE), d.string(VALUE)
        key = 8, caller, cookie
    if method == "break_lock":
        key = d.number("B"), d.number("q"), d.string(VALUE)
    if method == "unlock":
        key = 8, caller, d.string(VALUE)
    if method in ("lock", "set_cookie"):
        text = d.string(VALUE)
    if method == "lock":
        duration, flags = (d.number("I"), d.number("I")), d.number("B") & 3
    d.finish(part)
    if not 1 <= kind <= 3 or (not name and method in ("assert_locked", "lock", "set_cookie")) or flags == 3:
        raise Fail(-EINVAL)
    name = b"lock." + name
    object = with_object(object) if method == "lock" else there(object)
    lockers, its, its_tag, now = {}, 0, b"", time_of(object)
    if name in object.xattrs:
        lockers, its, its_tag = stored(object.xattrs[name], VALUE, read_lock)
    lockers = live_lockers(lockers, now)
    if method == "get_info":
        return object, 0, write_lock(lockers, its, its_tag)
    if method in ("unlock", "break_lock"):
        if key not in lockers:
            raise Fail(-ENOENT)
        del lockers[key]
        return (None, 0, b"") if its == 3 else keep_lock(object, name, lockers, its, its_tag)
    if method in ("assert_locked", "set_cookie"):
        if key not in lockers or its != kind or its_tag != tag:
            raise Fail(-EBUSY)
        if method == "assert_locked":
            return object, 0, b""
        if (8, caller, text) in lockers:
            raise Fail(-EBUSY)
        lockers[8, caller, text] = lockers.pop(key)
        return keep_lock(object, name, lockers, its, its_tag)
    if lockers and its_tag != tag:
        raise Fail(-EBUSY)
    if key in lockers and flags == 0:
        raise Fail(-EEXIST)
    if key not in lockers and flags == 2:
        raise Fail(-ENOENT)
    lockers.pop(key, None)
    if lockers and (kind != 2 or its != 2):
        raise Fail(-EBUSY)
    if duration != (0, 0) and now is None:
        raise Fail(-EOPNOTSUPP)
    expires = (0, 0) if duration == (0, 0) else expiry(now, *duration)
    address = address_of(object) or b"\1" + versioned(struct.pack("<III", 1, 0, 0))
    lockers[key] = versioned(struct.pack("<II", *expires) + address[:7] + struct.pack("<I", 1) + address[11:]
        + string(text))
    return keep_lock(object, name, lockers, kind, tag)


def lock_call(r):
    method = r.choice(["assert_locked", "break_lock", "get_info", "list_locks", "lock", "lock", "lock", "lock",
        "set_cookie", "set_cookie", "unlock"])
    if method == "list_locks":
        return method, b"" if r.random() < 0.9 else b"any bytes"
    name = r.choice((b"one", b"one", b"one", b"n" * 59, b"n" * 60 if r.random() < 0.1 else b"two", b""
        if r.random() < 0.2 else b"two"))
    cookie = lambda: r.choice((b"a", b"a", b"a", b"", b"b", b"cookie-8", b"c" * 64, b"c" * 900 if r.random() < 0.05
        else b"a"))
    body, kind = string(name), bytes([r.choice((1, 2, 2, 2, 2, 3, 0 if r.random() < 0.1 else 2))])
    tag = string(r.choice((b"", b"", b"", b"", b"tag", b"t" * 64)))
    if method in ("assert_locked", "lock", "set_cookie"):
        body += kind + string(cookie()) + tag
    if method == "break_lock":
        body += struct.pack("<Bq", r.choice((8, 8, 8, 1)), r.choice((*CLIENTS, -1))) + string(cookie())
    if method == "unlock":
        body += string(cookie())
    if method == "set_cookie":
        body += string(cookie())
    if method == "lock":
        text = string(r.choice((b"", b"why", b"d" * 64)))
        duration = r.choice(DURATIONS) if r.random() < 0.3 else (0, 0)
        body += text + struct.pack("<II", *duration) + bytes([r.choice((0, 0, 1, 1, 2, 3 if r.random() < 0.1 else 1))])
    return method, versioned(body)


def lock_value(r):
    """What others may have kept: with more of a locker than this class keeps, and up to the limit."""
    if r.random() < 0.2:
        return r.choice((b"", b"\1\1\xff", versioned(struct.pack("<I", 7)), write_lock({}, 2, b"tag")[:-1],
            b"l" * 4096))
    lockers = {}
    for _ in range(r.choice((0, 1, 1, 2, 3, 6, 12, 13))):
        cookie = r.choice((b"a", b"a", b"a", b"", b"b", b"cookie-8", b"c" * 64, b"%d" % r.randrange(13)))
        key = r.choice((8, 8, 8, 1)), r.choice((*CLIENTS, -1)), cookie
        expires = r.choice(((0, 0), (0, 0), (0, 1), (3, 5), (r.randrange(20), r.randrange(1 << 32)), (1 << 31, 0)))
        more = r.choice((23, 23, 23, 0, 114, 430)) if len(write_lock(lockers, 2, b"")) < 3500 else 0
        lockers[key] = versioned(struct.pack("<II", *expires) + bytes(more))
    if lockers and r.random() < 0.3:
        # so long that it is about full with one locker more
        lockers = {min(lockers): versioned(bytes(8))}
        lockers[min(lockers)] = versioned(bytes(8 + VALUE - len(write_lock(lockers, 2, b"")) - r.randrange(56, 74)))
    if lockers and r.random() < 0.03:
        lockers[min(lockers)] = versioned(bytes(r.randrange(8)))
    return write_lock(lockers, r.choice((1, 2, 2, 2, 3)), r.choice((b"", b"", b"", b"tag")))[:VALUE]


def locker(cookie, client=1, more=31):
    """A client's, with so many bytes besides its key."""
    return {(8, client, cookie): versioned(bytes(more))}


def lock_bounds():
    """Values, and calls by client 1 upon them: on a bound, and past it."""
    text = lambda body: versioned(string(b"one") + body)
    ask = lambda cookie=b"a", text=b"", kind=2: b"\2" + string(cookie) + string(b"") + string(text)
    shared = lambda *lockers: write_lock({key: value for part in lockers for key, value in part.items()}, 2, b"")
    full = lambda left: shared(locker(b"q", 2, VALUE - len(shared(locker(b"q", 2, 0))) - left))
    calls = {"lock": text(ask() + bytes(8) + b"\1"), "set_cookie": text(ask(text=b"new")), "unlock": text(string(b"a")),
        "assert_locked": text(ask()[:-4]), "break_lock": text(struct.pack("<Bq", 8, 1) + string(b"a")),
        "get_info": text(b"")}
    yield from ((bytes(VALUE), method, given) for method, given in calls.items())
    for more in (7, 8, VALUE - 41, VALUE - 40):
        yield from ((shared(locker(b"a", 1, more))[:VALUE], method, given) for method, given in calls.items())
    # 64 lockers of 56 bytes with their cookies' two; and as many as can be.
    for count, more in ((63, 31), (64, 31), (65, 31), (70, 31), (115, 8), (116, 8)):
        value = shared(locker(b"a", 1, more), *(locker(b"%d" % n, 1, more) for n in range(count - 1)))
        yield from ((value, method, given) for method, given in calls.items())
        yield shared(*(locker(b"%d" % n, 1, more) for n in range(count))), "lock", calls["lock"]
    for left in range(55, 61):
        yield full(left), "lock", calls["lock"]
        value = shared(locker(b"a"), locker(b"q", 2, 500), locker(b"r", 2, VALUE - 500 - 130 - left))
        yield value, "set_cookie", text(ask(text=b"c" * 64))
    for size in (3900, 3999, 4000):
        yield None, "lock", text(ask(b"c" * size) + bytes(8) + b"\1")
    yield write_lock(locker(b"a"), 3, b""), "unlock", calls["unlock"]
    yield write_lock(locker(b"a"), 3, b""), "break_lock", calls["break_lock"]


def shortest(count):
    """So many different tags, of as few bytes as can be."""
    return [b"", *(bytes([n]) for n in range(256)), *(bytes([n >> 8, n & 255]) for n in range(count))][:count]


def refcount_bounds():
    """The same of refcount."""
    ask = lambda tag, end: versioned(string(tag) + end)
    for refs in (0, 1, 2, 64, 65):
        for retired in (0, 64):
            value = write_refs([b"%d" % n for n in range(refs)], [b"r%d" % n for n in range(retired)])
            yield from ((value, method, ask(tag, b"\0")) for method in ("get", "put") for tag in (b"0", b"z", b"r0"))
            yield value, "read", versioned(b"\0")
    # Values about full: by few long tags, and by as many as there can be.
    for left in range(-1, 12):
        tag = b"t" * (4096 - len(write_refs([b"0", b""], [b"r"])) - left)
        value = write_refs([b"0", tag], [b"r"])[:4096]
        yield from ((value, *call)
            for call in (("get", ask(b"a", b"\0")), ("get", ask(b"0", b"\0")), ("put", ask(b"0", b"\0")),
            ("put", ask(tag, b"\0"))))
    calls = [("get", b"\0"), ("put", b"\1")]
    full = write_refs(shortest(620), []), write_refs([b"0", b"1"], shortest(719)), write_refs(shortest(300),
        shortest(320))
    for value in full:
        yield from ((value, method, ask(tag, end)) for method, end in calls
            for tag in (b"", b"\1\x6b", b"x" * 60, b"\xff\xff"))
        yield value, "read", versioned(b"\0")
    yield write_refs([b"0"], [], 1)[:-1] + b"\0", "get", ask(b"0", b"\0")
    yield write_refs([b"x" * 4077], [], 1), "get", ask(b"x" * 4077, b"\0")
    yield write_refs([b"x" * 4078], [], 1)[:4096], "get", ask(b"x" * 4078, b"\0")
    for count in (64, 127, 128, 129):
        for tags in (sorted(MANY_TAGS[:count]), sorted(MANY_TAGS[:count], reverse=True), shortest(count),
            [b"same"] * count):
            yield None, "set", versioned(struct.pack("<I", len(tags)) + b"".join(map(string, tags)))
    for long in (413, 414, 415, 518):  # 414: a value of 4,096 bytes, 518: an input of so many
        tags = [b"%02d" % n * 16 for n in range(99)] + [b"y" * long]
        yield None, "set", versioned(struct.pack("<I", len(tags)) + b"".join(map(string, tags)))


def refcount_value(r):
    """Of either version, with many references."""
    value = write_refs(r.sample(MANY_TAGS, r.choice((0, 0, 1, 1, 2, 3, 8, 64, 100))),
        r.sample(MANY_TAGS, r.choice((0, 0, 1, 5, 64, 100))), r.choice((1, 2, 2)))
    # (in the fourth and the last but three the struct ends before its last list)
    return r.choice((value, value, value, value[:-6], b"", b"\2\3" + value[2:], versioned(value[6:-3], value[0])
        + bytes(4), value[:2] + b"\4\0\0\0" + value[6:],
        versioned(value[6:] + b"later", value[0]) + b"after", b"w" * 4096,
        versioned(struct.pack("<I", 1 << 31) + value[10:])))


# By name: the model, a random call, the xattrs and keys that are looked at, and values that are put there from outside.

CLASSES = {
    "hello": (hello, hello_call, [b"said_by", b"amplified_by", b"foo"], [], []),
    "version": (version, version_call, [b"ceph.objclass.version"], [],
    [b"", b"\1", versioned(bytes(8) + string(b"x")), versioned(bytes(8) + string(b"x"), 9, 9),
        write_version(0, b"y" * 64), write_version(0, b"y" * 65), b"z" * 200]),
    "refcount": (refcount, refcount_call, [b"refcount"], [], [refcount_value]),
    "cmpomap": (cmpomap, cmpomap_call, [], [b"k", b"key", b"k" * 64, b"a", b"b", b"c"],
    [b"", b"1234567", bytes(8), b"v" * 33, b"abc"]),
    "numops": (numops, numops_call, [], [b"n", b"m", b"k" * 64],
    [b"x", b"12", b"", b"12345678901234567", b"1.5e-05", b"1e", b"-7.25", b"8" * 65, b"2e300", b"3e-300"]),
    "lock": (lock, lock_call, [b"lock.one", b"lock.two", b"lock." + b"n" * 59], [], [lock_value]),
}
WITH_ENVIRONMENT = ["hello", "version", "lock"]
BOUNDS = {"lock": lock_bounds, "refcount": refcount_bounds, "version": version_bounds, "cmpomap": cmpomap_bounds,
    "numops": numops_bounds}
# The most bytes of input, by class or by method.
MOST_INPUT = {"hello": 4096, "version": 8192, "refcount": 8196, "cmpomap": 40960, "numops": 384, "lock": 8192}


class Play:
    """Calls one after another, and what is right of each: who calls, method, input, object before and after, code,
    output."""

    entries = 0  # that an object's xattrs leave room for

    def __init__(self, seed):
        self.r, self.objects, self.calls = random.Random(seed), {}, []

    def call(self, model, name, method, given, client=None):
        client, before = client or self.r.choice(CLIENTS), self.objects.get(name)
        try:
            after, code, output = model(before.copy() if before else None, client, method, given)
        except Fail as fail:
            after, code, output = before, fail.args[0], b""
        self.objects[name] = after
        self.calls.append((client, method, given, before, after, code, output))

    def changed(self, name):
        """An object was changed from outside: the next call has it so."""

    def put(self, name, xattrs, keys, value):
        """A value from outside."""
        item, object = self.r.choice(xattrs + keys), self.objects.get(name)
        object = object.copy() if object else Object()
        try:
            (object.set if item in xattrs else object.set_key)(item, value)
            self.objects[name] = object
        except Fail:
            pass
        self.changed(name)

    def put_entry(self, name):
        """An entry of the environment, as if it were an xattr of the object."""
        entry, value = some_entry(self.r)
        self.put(name, [entry], [], value)

    def write(self, name, data):
        """Data from outside, of an object that perhaps has nothing else."""
        object = self.objects.get(name)
        object = self.objects[name] = object.copy() if object else Object()
        object.data = data + object.data[len(data):]
        self.changed(name)

    def fill(self, name, has_keys):
        """As many xattrs, or keys, as an object may have."""
        object = self.objects.get(name)
        object = self.objects[name] = object.copy() if object else Object()
        part, most = (object.keys, KEYS) if has_keys else (object.xattrs, XATTRS - self.entries)
        for n in range(most):
            item = bytes((ord("z"), n >> 8, n & 255)) if has_keys else b"z%02d" % n
            if len(part) < most:
                part[item] = b""
        self.changed(name)

    def remove(self, name):
        self.objects[name] = None
        self.changed(name)


def spoiled(r, given):
    """Cut, longer, or with other bytes."""
    kind = r.randrange(4)
    if kind == 0:
        return given[:r.randrange(len(given) + 1)]
    if kind == 1 and given:
        at = r.randrange(len(given))
        return given[:at] + bytes([r.choice((0, 1, 2, 255))]) + given[at + 1:]
    if kind == 2:
        return given.ljust(r.choice((128, 129, 4096, 4097, 8192, 32768, 32769)), b"\0")
    return given + bytes(r.randrange(9))


def on_bounds(which):
    model, _, xattrs, _, _ = CLASSES[which]
    p = Play(which)
    for value, method, given in BOUNDS.get(which, tuple)():
        p.objects["o"] = value if isinstance(value, Object) else Object()
        if isinstance(value, bytes):
            p.objects["o"].set(xattrs[0], value)
        p.call(model, "o", method, given, 1)
    return p


def play(which, calls, p):
    model, make, xattrs, keys, values = CLASSES[which]
    r = p.r
    for n in range(calls):
        name = r.choice(("o", "o", "p", "q"))
        method, given = make(r)
        if r.random() < 0.1:
            given = spoiled(r, given)
        p.call(model, name, method, given[:MOST_INPUT.get(f"{which}.{method}", MOST_INPUT[which])])
        if r.random() < 0.06 and values:
            value = r.choice(values)
            p.put(name, xattrs, keys, value(r) if callable(value) else value)
        if r.random() < 0.3 and which in WITH_ENVIRONMENT:
            p.put_entry(name)
        if r.random() < (0.1 if which == "hello" else 0.02):
            p.write(name, bytes(r.choice(b"abzAZ{`\xe1\xff ") for _ in range(r.choice((0, 1, 9, 100, 1100, 1200)))))
        if r.random() < (0.005 if xattrs else 0.003):
            p.fill(name, not xattrs)
        if r.random() < 0.04 and p.objects.get(name):
            p.remove(name)
    return p


def lines_of(object):
    """An object as `radoscls run --load` reads it."""
    if object is None:
        return ""
    named = [(kind, item) for kind, its in (("xattr", object.xattrs), ("key", object.keys))
        for item in sorted(its.items())]
    return "\n".join([f"data {object.data.hex() or '-'}",
        *(f"{kind} 0x{name.hex()} {value.hex() or '-'}" for kind, (name, value) in named)]) + "\n"


def answer_of(said):
    """What it prints of a call with --show: code, output, and the object after it."""
    found, object = re.match(r"code (-?\d+)\noutput (\S+)\nsteps \d+\nobject .*\n", said), None
    if not found:
        return said
    bytes_of = lambda text: b"" if text == "-" else bytes.fromhex(text)
    for kind, *words in map(str.split, said[found.end():].splitlines()):
        object = object or Object()
        if kind == "data":
            object.data = bytes_of(words[0])
        else:
            name = bytes.fromhex(words[0][2:]) if words[0].startswith("0x") else words[0].encode()
            (object.xattrs if kind == "xattr" else object.keys)[name] = bytes_of(words[1])
    return lines_of(object), int(found[1]), bytes_of(found[2])


def ask(program, image, work, call, n):
    """What the program answers of a call."""
    client, method, given, before, *_ = call
    files = [os.path.join(work, f"{n}.{what}") for what in ("object", "input")]
    with open(files[0], "w") as to:
        to.write(lines_of(before))
    with open(files[1], "wb") as to:
        to.write(given)
    words = [program, "run", image, method, "--loops", "--caller", str(client), "--load", files[0], "--input", "@"
        + files[1], "--show"]
    said = subprocess.run(words, stdout=subprocess.PIPE, stderr=subprocess.STDOUT, encoding="utf-8").stdout
    for file in files:
        os.remove(file)
    return answer_of(said)


def compare(which, calls, program, work):
    """How many answers differ."""
    image, p = os.path.join(work, which + ".img"), play(which, calls, on_bounds(which))
    done = subprocess.run([sys.executable, os.path.join(TOP, "tools", "radoscls-cc"),
        os.path.join(HERE, which + ".c"), "-o", image, "--loops",
        "--radoscls", program], stdout=subprocess.PIPE, encoding="utf-8")
    if done.returncode:
        print(done.stdout, end="")
        return 1
    with ThreadPoolExecutor(os.cpu_count()) as threads:
        answers = list(threads.map(lambda n: ask(program, image, work, p.calls[n], n), range(len(p.calls))))
    bad, codes = 0, {}
    for (client, method, given, before, after, code, output), answer in zip(p.calls, answers):
        wanted = lines_of(after), code, output
        if answer != wanted:
            bad += 1
            if bad <= 3:
                what = f"client {client} {method} {given.hex() or '-'} on\n{lines_of(before)}"
                print(f"differs: {what}  {answer}\n  wanted {wanted}", file=sys.stderr)
        codes[code] = codes.get(code, 0) + 1
    print(f"{which}: {len(p.calls)} calls, {bad} differ; codes "
        + ", ".join(f"{code} {count}" for code, count in sorted(codes.items(), reverse=True)))
    return bad


def main():
    program = sys.argv[1] if len(sys.argv) > 1 else next(filter(os.path.exists,
        (os.path.join(TOP, "crates", "radoscls", "out", *more, "radoscls") for more in ([], ["tried"]))), "radoscls")
    calls, classes, bad = int(sys.argv[2]) if len(sys.argv) > 2 else 2000, sys.argv[3:] or list(CLASSES), 0
    with tempfile.TemporaryDirectory() as work:
        for which in classes:
            bad += compare(which, calls, program, work)
    return 1 if bad else 0


if __name__ == "__main__":
    sys.exit(main())

"""What the installed Python package answers: its version, the counter's values of docs/WRITING.md, and each refusal.

    release_test.py TOP        run by tools/release_test.sh
"""
import importlib.metadata
import pathlib
import struct
import sys
import threading

import sillarnica
from sillarnica import Class, Edit, Limits, Object

top = pathlib.Path(sys.argv[1])
# the version by the file VERSION, in the package and in what pip knows of it (Debian's package has nothing for pip)
version = (top / "VERSION").read_text().strip().replace("-dev", ".dev0")
known = [it.version for it in importlib.metadata.distributions() if it.metadata["Name"] == "sillarnica"]
assert {sillarnica.__version__, *known} == {version}, (sillarnica.__version__, known)
# the methods of examples/embed/parts.txt
PARTS = sorted(line.split()[1] for line in (top / "examples" / "embed" / "parts.txt").read_text().split("\n") if line.startswith(".method"))


def raised(kind, call, *words, **named):
    try:
        call(*words, **named)
    except kind as error:
        return error
    raise AssertionError(f"{kind.__name__} isn't raised")


class Kept:
    """A store of one object."""

    def __init__(self, object):
        self.object, self.read_bytes = object, 0

    def size(self):
        return None if self.object is None else len(self.object.data)

    def read(self, at, length):
        self.read_bytes += length
        return self.object.data[at : at + length]

    def xattr(self, name):
        return self.object.xattrs.get(name)

    def key(self, name):
        return self.object.keys.get(name)

    def xattrs_from(self, place, most):
        return sorted(it for it in self.object.xattrs.items() if it[0] >= place)[:most]

    def keys_from(self, place, most):
        return sorted(it for it in self.object.keys.items() if it[0] >= place)[:most]


with Class.open(top / "examples" / "count.img") as counter:
    (method,) = counter.methods
    assert method == ("count", True, True, 0, 8, False, False, True), method
    one, two = ((number).to_bytes(8, "little") for number in (1, 2))
    reply = counter.call("count", object=Object())
    # (as docs/EMBED.md shows it)
    assert (reply.code, reply.output, reply.object.keys) == (1, one, {b"n": one}), reply
    again = counter.call("count", object=reply.object)
    assert (again.code, again.output) == (2, two) and again.object.keys == {b"n": two}, again
    assert [*again.edits] == [Edit("set_key", b"n", two)] and sillarnica.edited(reply.object, again.edits) == again.object
    # a value of another length is an error of the method's own, which changes nothing
    wrong = Object(b"data", {}, {b"n": b"1234567"})
    refused = counter.call("count", object=wrong)
    assert refused.code < 0 and refused.edits == [] and refused.object == wrong, refused
    raised(sillarnica.NoMethod, counter.call, "other")
    raised(sillarnica.InputTooLong, counter.call, "count", bytes(method.in_cap + 1))
    raised(ValueError, counter.call, "count", caller=1 << 32)
    for past in (Object(bytes(65537)), Object(keys={bytes(65): b""}), Object(keys={bytes(300): b""}), Object(xattrs={b"a": bytes(4097)}),
                 Object(xattrs={b"a": bytes(65536)}), Object(xattrs={b"%d" % number: b"" for number in range(33)})):
        raised(sillarnica.Malformed, counter.call, "count", object=past)
    codes = []
    threads = [threading.Thread(target=lambda: codes.extend(counter.call("count").code for _ in range(100))) for _ in range(4)]
    for it in threads:
        it.start()
    for it in threads:
        it.join()
    assert codes == [1] * 400
    # an object past the limits of a flat form
    large = Kept(Object(bytes(5 << 20), {b"x%d" % number: b"" for number in range(50)}, {b"k%d" % number: b"" for number in range(2000)}))
    assert counter.call_on(large, "count")[::3] == (1, [Edit("set_key", b"n", one)]) and large.read_bytes == 0
    raised(sillarnica.Full, counter.call_on, large, "count", limits=Limits(keys=5000))
    for past in (Limits(1 << 63), Limits(xattr_name=0), Limits(key_name=65)):
        raised(sillarnica.Malformed, counter.call_on, large, "count", limits=past)
raised(ValueError, counter.call, "count")
counter.close()
why = raised(sillarnica.Refused, Class, b"RCL1")
assert (str(why), why.kind, why.number, why.method, why.slot) == ("image refused after 0 methods: 1 Truncated", 1, 1, 0, -1), why
unsafe = b"RCL1" + bytes([1, 0, 0, 0, 1]) + b"f" + bytes([1, 0, 0, 0, 0, 1, 0]) + b"\x95" + bytes(7)
why = raised(sillarnica.Refused, Class, unsafe)
assert (str(why), why.kind, why.number, why.slot) == ("refused method 0 slot 0: 5 UnsetRead", 2, 5, 0), why
with Class.open(top / "examples" / "embed" / "parts.img") as parts:
    assert [it.name for it in parts.methods] == PARTS, parts.methods
    # on an object that is kept elsewhere each method answers what it answers on the whole
    full = Object(bytes(range(200)), {b"a": b"x", b"b": b"yy"}, {b"n": bytes(8), b"k": b"v", b"z": b"q"})
    for it in parts.methods:
        for object in (None, Object(), full):
            for text in {b"", bytes(min(8, it.in_cap)), b"\1" * it.in_cap}:
                for limits in (Limits(65536, 32, 1024), Limits(65536)):
                    done = parts.call_on(Kept(object), it.name, text, limits=limits)
                    assert done == parts.call(it.name, text, object)[:4], (it.name, object, text, done)
# in rule set 3 something follows a method's code: two methods that answer 0
zero = bytes([1, 0, 0, 0, 0, 2, 0]) + b"\xb7" + bytes(7) + b"\x95" + bytes(7) + bytes(2)
with Class(b"RCL3" + bytes([2, 0, 0, 0]) + b"\1f" + zero + b"\1g" + zero) as third:
    assert [it.name for it in third.methods] == ["f", "g"] and third.call("g").code == 0, third.methods
# a class with loops (docs/LOOPS.md): a sum of its input, which declares two heads' places and a budget of 100
slots = [0xB7, 0, 0, 0], [0xB7, 4, 0, 0], [0x3D, 0x24, 6, 0], [0xBF, 0x15, 0, 0], [0x0F, 0x45, 0, 0], [0x71, 0x55, 0, 0], [0x0F, 0x50, 0, 0]
slots += [0x07, 4, 0, 1], [0x05, 0, -7, 0], [0x95, 0, 0, 0]
code = b"".join(struct.pack("<BBhi", *it) for it in slots)
heads = struct.pack("<HIHB", 1, 100, 2, 2) + bytes([0, 1, 4, 2]) + struct.pack("<QQ", 0, 16)
looped = b"RCL3" + bytes([1, 0, 0, 0]) + b"\3sum" + struct.pack("<BHHH", 1, 16, 0, len(slots)) + code + heads
with Class(looped, budget=sillarnica.BUDGET) as summed:
    # each round is 7 instructions, the beginning 2 and the end 2
    assert summed.call("sum", b"\1\2\3", caller=7) == (6, b"", 25, [], None)
    assert summed.call_on(Kept(Object(bytes(5 << 20))), "sum", b"\1\2\3") == (6, b"", 25, [])
    # of 14 bytes it would take 102: nothing is changed
    whole = Object(b"data", {b"a": b"b"}, {})
    assert summed.call("sum", bytes(14), whole) == (-62, b"", 100, [], whole)
    assert summed.methods[0].name == "sum" and not summed.methods[0].needs_data
why = raised(sillarnica.Refused, Class, looped)
assert (str(why), why.kind, why.number) == ("refused method 0 slot 8: 1 Backward", 2, 1), why
why = raised(sillarnica.Refused, Class, looped, budget=99)
assert (why.kind, why.number, why.method, why.slot) == (3, 100, 0, -1) and "budget 100, greater than 99" in str(why), why
why = raised(sillarnica.Refused, Class, looped[:-1], budget=100)
assert (str(why), why.kind, why.number) == ("image refused after 0 methods: 1 Truncated", 1, 1), why
# (the head leaves out what the loop changes, the sum)
wrong = looped.replace(heads, struct.pack("<HIHB", 1, 100, 2, 1) + bytes([4, 2]) + struct.pack("<QQ", 0, 16))
why = raised(sillarnica.Refused, Class, wrong, budget=100)
assert (str(why), why.kind, why.number, why.slot) == ("refused method 0 slot 8: 1 Backward", 2, 1, 8), why
for past in (0, -1, sillarnica.BUDGET_LIMIT + 1, (1 << 32) + 100):
    raised(ValueError, Class, looped, budget=past)
with Class.open(top / "examples" / "count.img", budget=sillarnica.BUDGET_LIMIT) as counter:
    assert counter.call("count", object=Object()).code == 1
print("well")

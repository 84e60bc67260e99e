"""What the class `bpf` answers to a request, and what the object holds afterwards: written after docs/CEPH.md,
over the interpreter of model.py and the rounds of parts.py.

A list of edits is as model.py has it. An image counts as accepted if it is one of those that are named so; of another one nothing is said but that a
name or a length was wrong.
"""

import struct

import model
import parts

READS = ("query", "see", "query_sent", "see_sent")
FRAMED = ("exec", "query", "exec_sent", "query_sent")
UNKNOWN = "whatever the verifier says"
MOST_DATA = 128 << 20  # osd_max_object_size, as it is shipped
MOST_EDITS = 4096


def limits(whole):
    """The refusal of an object that would have to be made again and is over the limits, or None."""
    if whole is None:
        return None
    if len(whole.data) > model.DATA_LIMIT:
        return -27
    for name, most in (("xattrs", model.XATTR_LIMIT), ("keys", model.KEY_LIMIT)):
        part = getattr(whole, name)
        longest = max(map(len, part.values()), default=0)
        if len(part) > most or longest > model.VALUE_LIMIT or any(len(name) > model.NAME_LIMIT for name in part):
            return -7
    return None


def is_of_xattr(one):
    return one[0] in ("set", "unset") and one[1] == "xattrs"


def lasting(edits):
    """The edits behind the last one that removes or creates the object."""
    start = max((at + 1 for at, one in enumerate(edits) if one[0] in ("create", "remove")), default=0)
    return edits[start:]


def removed(edits):
    """The xattrs whose last lasting edit is a removal."""
    last = {one[2]: one[0] for one in lasting(edits) if is_of_xattr(one) and not is_of_header(one)}
    return sorted(name for name, kind in last.items() if kind == "unset")


def is_of_header(one):
    return is_of_xattr(one) and one[2] == model.HEADER


def refusal_of_edits(edits, seen, behind, is_native):
    """Why a list isn't made, or None."""
    for number, one in enumerate(edits):
        if number == MOST_EDITS:
            return -7
        if not is_of_xattr(one) or (is_native and is_of_header(one)):
            continue
        if one[2].startswith((b"bpf.", b"\0") if is_native else b"bpf."):
            return -13
        if b"\0" in one[2]:
            return -84
    if lasting(edits) != edits or not removed(edits):
        return None
    if behind:
        return -114
    # An object that had one of them is made again, with all its parts.
    return limits(seen) if gone(edits, seen) else None


def gone(edits, seen):
    """The xattrs of before the call that it removes."""
    return [name for name in removed(edits) if lasting(edits) == edits and name in seen.xattrs]


def with_environment(method, seen, environment):
    if environment and seen and "xattrs" in model.parts_of(method):
        return model.Object(seen.data, {**seen.xattrs, **environment}, seen.keys)
    return seen


def answer(way, method, data, seen, caller, limit, behind=False, environment=None, is_made=False):
    """Result, output and edits of a call of a method of an accepted class, on what the OSD shows of the object. An
    installed class is shown an environment, too.
    """
    if len(data) > method.in_cap:
        return -90, b"", []
    try:
        whole = with_environment(method, seen, environment)
        found, _ = parts.call(method, whole, caller, data, behind, MOST_DATA, is_made)
    except parts.Refused as refused:
        return refused.result, b"", []
    framed, wrote = way in FRAMED, bool(found.edits)
    if wrote and way in READS:
        return -30, b"", []
    if wrote and len(found.output) + (16 if framed else 0) > limit:
        return -105, b"", []
    if not framed and (not -4095 <= found.code < 1 << 31 or found.code in (-11, -115)):
        return -75, b"", []
    refused = refusal_of_edits(found.edits, seen, behind, environment is not None)
    if refused:
        return refused, b"", []
    if framed:
        return 0, struct.pack("<qQ", found.code, found.steps) + found.output, found.edits
    # Of an error no output comes back.
    return found.code, found.output, found.edits


def is_flat(image, method, data, whole, caller):
    """Whether a call answers the same by the limits of a flat form."""
    found = model.methods_of(image).get(method)
    if found is None or len(data) > found.in_cap:
        return True
    try:
        return model.call(found, whole, caller, data) == parts.call(found, whole, caller, data, limit=MOST_DATA)[0]
    except parts.Refused:
        return False


def shown(before, left):
    """What an OSD shows behind steps that left an object so; of the data the size alone is looked at."""
    before = before or model.Object()
    return left and model.Object(left.data, before.xattrs, before.keys)


def kept(edits, held):
    """What is held where a list is made over it: an object that is removed takes its classes along."""
    whole, classes = held or (None, {})
    after = model.fold([one for one in edits if not is_of_header(one)], whole)
    return after and (after, {} if ("remove",) in edits else classes)


def header_after(edits, header):
    """The omap's header where a list is made."""
    for one in edits:
        header = b"" if one == ("remove",) else header
        if is_of_header(one):
            header = one[3] if one[0] == "set" else b""
    return header


def parse(data):
    """A request's source, name or image, method and input, or None."""
    if len(data) < 6 or data[0] != 1 or data[1] > 1:
        return None
    length = struct.unpack_from("<I", data, 2)[0]
    if len(data) < 7 + length or len(data) < 7 + length + data[6 + length]:
        return None
    at = 7 + length
    return data[1], data[6 : 6 + length], data[at : at + data[6 + length]], data[at + data[6 + length] :]


def is_class_name(name):
    return 1 <= len(name) <= 64 and all(0x20 < byte < 0x7F for byte in name)


def call(way, data, held, caller, accepted, limit=64, behind=False, left=None):
    """Result, output and what is held afterwards (an Object, its loaded classes, or None if it is absent). Behind
    other steps, `left` is what they left of what was held.
    """
    found = called(way, data, held, caller, accepted, limit, behind, left)
    if found[0] is UNKNOWN or found[0] < 0:
        return *found[:2], held, []
    return *found[:2], kept(found[2], left if behind else held), found[2]


def called(way, data, held, caller, accepted, limit, behind, left):
    if way in READS and held is None and not behind:
        return -2, b"", []
    asked = parse(data)
    if asked is None or asked[0] != way.endswith("_sent"):
        return -22, b"", []
    sent, name, method, data = asked
    whole, classes = held or (None, {})
    if not sent and not is_class_name(name):
        return -22, b"", []
    image = name if sent else classes.get(name)
    if image is None:
        return -61, b"", []
    if image not in accepted:
        return UNKNOWN, b"", []
    found = model.methods_of(image).get(method)
    if found is None:
        return -38, b"", []
    seen = shown(whole, left[0] if left else None) if behind else whole
    return answer(way, found, data, seen, caller, limit, behind)


def native_name(cls):
    """What an image of the tests is installed as: `lock` is a class of Ceph's own."""
    return "lock.2" if cls == b"lock" else cls.decode()


def asks_for_object(method, data, caller):
    """Whether a method's code of an absent object is WITH_OBJECT."""
    return len(data) <= method.in_cap and model.call(method, None, caller, data).code == -55


def native(method, data, held, caller, environment, limit=64, behind=False, left=None):
    """The same of a method of an installed class: it is called by its own name, with its input alone."""
    whole, reads = held[0] if held else None, method.flags == 1
    if reads and whole is None and not behind:
        return -2, b"", held, []
    seen = shown(whole, left[0] if left else None) if behind else whole
    words = "see" if reads else "run", method, data
    result, output, edits = answer(*words, seen, caller, limit, behind, environment)
    if seen is None and not reads and asks_for_object(method, data, caller):
        environment = {**environment, b"\0made": b""}
        environment.pop(model.HEADER, None)
        result, output, edits = answer(*words, model.Object(), caller, limit, behind, environment, True)
        edits = edits and [("create",), *edits]
    # a class of Ceph's answers so to what it can't decode
    result = -22 if result == -90 else result
    if result < 0:
        return result, output, held, []
    return result, output, kept(edits, left if behind else held), edits


# What a call asks of the OSD, as the stand-in writes it down: a line each.


def hex_of(name):
    return name.hex() or "-"


def line_of(one):
    kind, *rest = one
    if is_of_header(one):
        return "set header"
    if kind in ("create", "remove"):
        return kind
    if kind == "length":
        return f"truncate {rest[0]}"
    if kind == "write":
        return f"write {rest[0]} {len(rest[1])}"
    return f"{'remove key' if kind == 'unset' else 'set xattr'} {hex_of(rest[1])}"


def changes(edits, was_there):
    """The changes that a list is made by: neighbouring sets of keys are one, and nothing is made before the last removal,
    nor that of an object that wasn't there.
    """
    last = max((at for at, one in enumerate(edits) if one == ("remove",)), default=None)
    if last is not None:
        edits = edits[last if was_there else last + 1 :]
    names, start = removed(edits), len(edits) - len(lasting(edits))
    made = [
        one
        for at, one in enumerate(edits)
        if not is_of_xattr(one) or is_of_header(one) or (one[0] == "set" and (at < start or one[2] not in names))
    ]
    lines, keys = [], set()
    for one, following in zip(made, [*made[1:], ("end",)]):
        if one[:2] != ("set", "keys"):
            lines.append(line_of(one))
            continue
        keys.add(one[2])
        if following[:2] != ("set", "keys"):
            lines.append(" ".join(["set keys", *map(hex_of, sorted(keys))]))
            keys = set()
    return lines


def remade(after, classes, header):
    """An object that is removed and made again."""
    lines = ["remove", "create"] + ([f"write 0 {len(after.data)}"] if after.data else [])
    names = [*sorted(after.xattrs), *sorted(b"bpf." + name for name in classes)]
    lines += [f"set xattr {hex_of(name)}" for name in names] + (["set header"] if header else [])
    return lines + ([" ".join(["set keys", *map(hex_of, sorted(after.keys))])] if after.keys else [])


def trace(method, data, seen, caller, behind, edits, classes, environment, header):
    """All that a call that is answered asks of the OSD, but for the class and the caller: it reads what it needs."""
    lines, names = ["stat"], gone(edits, seen) if seen else []
    if seen and "xattrs" in model.parts_of(method):
        lines += ["xattrs", "header", "random 16"] if environment else ["xattrs"]
    whole = with_environment(method, seen, environment)
    lines += parts.call(method, whole, caller, data, behind, MOST_DATA)[1]
    if names:
        without = seen.copy()
        for name in names:
            del without.xattrs[name]
        lines += ([f"read 0 {len(seen.data)}"] if seen.data else []) + [f"keys - {model.KEY_LIMIT}"]
        lines += ([] if environment else ["header"]) + remade(without, classes, header)
    return lines + changes(edits, seen is not None)

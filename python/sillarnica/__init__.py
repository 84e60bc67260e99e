"""Verified classes in BPF, called on objects that the caller keeps.

    from sillarnica import Class, Object

    with Class.open("count.img") as counter:
        reply = counter.call("count", object=Object())
        print(reply.code, reply.object)

A class is verified once, when it is opened: then each of its methods runs on every object and input to its exit, in no more
instructions than it has. A call is a function of its arguments. Its reply has the method's code, negative where the method
refuses, and then nothing changes; its output; the edits, one for each thing that the method did to the object, in order, also
where it changed nothing; and the object after them.

A class whose methods may loop is opened with a budget, the greatest that the caller gives: `Class.open("sum.img", budget=BUDGET)`.
A call that would take more than its method's own has the code -62, and changes nothing.

An object of any size stays where the caller keeps it: `Class.call_on` asks a `Store` for what the method touches.

The shared library is the one of the environment's variable SILLARNICA_LIBRARY, or the system's `libsillarnica.so.2`.
"""
from __future__ import annotations

import ctypes
import dataclasses
import os
import struct
import threading
from typing import Dict, Iterator, List, Mapping, NamedTuple, Optional, Protocol, Tuple, Union

__version__ = "0.5.0.dev0"
__all__ = ["BUDGET", "BUDGET_LIMIT", "Class", "Done", "Edit", "Full", "InputTooLong", "Limits", "Malformed", "Method", "NoMethod",
           "Object", "Refused", "Reply", "Store", "edited"]

# The number of what the library declares: it rises when a call or a format changes.
CALLS = 2
DATA, XATTRS, KEYS = 1, 2, 4
# Of a part of an object: the bytes of a block, and how many a call can have.
BLOCK, BLOCKS = 4096, 1024
ANY_NUMBER = 2**32 - 1
# What a call of a method with loops may take: usually, and at most.
BUDGET, BUDGET_LIMIT = 131072, 1048576


class Refused(Exception):
    """The image spells no class, or a rule refuses the class: the text says which and where, as `radoscls verify` does. Or a
    method declares a greater budget than the caller gives.

    `kind` is 1 for the image, 2 for a rule and 3 for a budget, `number` that of the refusal or of the rule, or the method's
    budget; `method` counts from 0, and `slot` is -1 where none is named.
    """

    def __init__(self, text: str, kind: int, number: int, method: int, slot: int) -> None:
        super().__init__(text)
        self.kind, self.number, self.method, self.slot = kind, number, method, slot


class NoMethod(LookupError):
    """The class has no method of that name."""


class InputTooLong(ValueError):
    """The input is longer than the method takes."""


class Malformed(ValueError):
    """The object is past a limit: 65,536 bytes of data, 32 xattrs, 1,024 keys, names of 1 to 64 bytes, values of 4,096. Of a
    call on a store: the limits are none, what the store answered is past them, or over 4 MiB of data are read."""


class Full(Exception):
    """A call on a store came to over 32 xattrs or 1,024 keys, of those that it looked up or set."""


@dataclasses.dataclass
class Object:
    """An object: its data, its xattrs, and the keys of its omap. There is one, even if all three are empty; None is no object."""

    data: bytes = b""
    xattrs: Mapping[bytes, bytes] = dataclasses.field(default_factory=dict)
    keys: Mapping[bytes, bytes] = dataclasses.field(default_factory=dict)


class Method(NamedTuple):
    """What a method declares: whether it reads and writes, the most bytes of its input and output, and which parts of an object
    it can see or change."""

    name: str
    reads: bool
    writes: bool
    in_cap: int
    out_cap: int
    needs_data: bool
    needs_xattrs: bool
    needs_keys: bool


class Edit(NamedTuple):
    """What a method did to an object: `create`, `remove`, `setxattr`, `rmxattr`, `set_key`, `remove_key`, `truncate` to `at`
    bytes, or `write` of `value` at `at`, with zeros between the data's end and there."""

    kind: str
    name: bytes = b""
    value: bytes = b""
    at: int = 0


class Reply(NamedTuple):
    """The answer of a call: the method's code, its output, the instructions executed, the edits, and the object after them."""

    code: int
    output: bytes
    steps: int
    edits: List[Edit]
    object: Optional[Object]


class Done(NamedTuple):
    """The answer of a call on a store: the method's code, its output, the instructions executed, and the edits, which the caller
    makes of the object."""

    code: int
    output: bytes
    steps: int
    edits: List[Edit]


class Limits(NamedTuple):
    """What an object in a store may hold: bytes of data (below 2^63), how many xattrs and keys (None: any number), and the bytes of
    their names (1 to 64). A number has the call look up all those names first."""

    data: int = 1 << 31
    xattrs: Optional[int] = None
    keys: Optional[int] = None
    xattr_name: int = 64
    key_name: int = 64


class Store(Protocol):
    """Where the caller keeps one object of any size. All answers of one call have to be of one state of it."""

    def size(self) -> Optional[int]:
        """The bytes of its data; None if there is no object."""

    def read(self, at: int, length: int) -> bytes:
        """These bytes of the data, all below its size."""

    def xattr(self, name: bytes) -> Optional[bytes]:
        """The value of an xattr; None if there is none of that name."""

    def key(self, name: bytes) -> Optional[bytes]:
        """The value of a key; None if there is none of that name."""

    def xattrs_from(self, place: bytes, most: int) -> List[Tuple[bytes, bytes]]:
        """The least xattrs whose names aren't below a place, in the order of their bytes: `most` of them, or fewer if no more come."""

    def keys_from(self, place: bytes, most: int) -> List[Tuple[bytes, bytes]]:
        """The same of keys."""


class _Refusal(ctypes.Structure):
    _fields_ = [("kind", ctypes.c_uint32), ("number", ctypes.c_uint32), ("method", ctypes.c_uint64), ("slot", ctypes.c_int64)]


class _Answer(ctypes.Structure):
    _fields_ = [("code", ctypes.c_int64), ("steps", ctypes.c_uint64), ("output_len", ctypes.c_uint64), ("edits_len", ctypes.c_uint64)]


class _Declared(ctypes.Structure):
    _fields_ = [(name, ctypes.c_uint32) for name in ("flags", "in_cap", "out_cap", "needs")] + [("name_len", ctypes.c_uint64)]


class _Verified(ctypes.Structure):
    _fields_ = [("held", ctypes.c_void_p), ("is_open", ctypes.c_uint32)]


class _Limits(ctypes.Structure):
    _fields_ = [("data", ctypes.c_uint64)] + [(name, ctypes.c_uint32) for name in ("xattrs", "keys", "xattr_name", "key_name")]


class _Want(ctypes.Structure):
    _fields_ = [("length", ctypes.c_uint32), ("bytes", ctypes.c_uint8 * 68)]


def _load() -> ctypes.CDLL:
    calls = ctypes.CDLL(os.environ.get("SILLARNICA_LIBRARY", f"libsillarnica.so.{CALLS}"))
    calls.sillarnica_version.restype = ctypes.c_uint32
    calls.sillarnica_explain.restype = calls.sillarnica_loops_explain.restype = ctypes.c_int64
    found = calls.sillarnica_version()
    if found != CALLS:
        raise ImportError(f"the library's calls have the number {found}, not {CALLS}")
    return calls


_calls = _load()


def _slices(*texts: bytes) -> list:
    return [word for text in texts for word in (text, ctypes.c_size_t(len(text)))]


def _number(form: str, number: int) -> bytes:
    """A length in bytes; `Malformed` if it has no place there, so that no other object's bytes are made."""
    try:
        return struct.pack(form, number)
    except struct.error:
        raise Malformed("the object is past a limit") from None


def _entries(part: Mapping[bytes, bytes]) -> bytes:
    form = _number("<H", len(part))
    for name in sorted(part):
        form += _number("<B", len(name)) + name + _number("<H", len(part[name])) + part[name]
    return form


def _flat(object: Optional[Object]) -> bytes:
    """The object's bytes, as the library takes them."""
    if object is None:
        return b"\0"
    return b"\1" + _number("<I", len(object.data)) + object.data + _entries(object.xattrs) + _entries(object.keys)


_KINDS = {1: "create", 2: "remove", 3: "setxattr", 4: "rmxattr", 5: "set_key", 6: "remove_key", 7: "truncate", 8: "write"}


def _edits(text: bytes) -> Iterator[Edit]:
    at = 0

    def take(count: int) -> bytes:
        nonlocal at
        at += count
        return text[at - count : at]

    def number(form: str) -> int:
        return struct.unpack(form, take(struct.calcsize(form)))[0]

    while at < len(text):
        kind = take(1)[0]
        if kind <= 2:
            yield Edit(_KINDS[kind])
        elif kind <= 6:
            name = take(number("<H"))
            yield Edit(_KINDS[kind], name, take(number("<H")) if kind in (3, 5) else b"")
        else:
            place = number("<Q")
            yield Edit(_KINDS[kind], b"", take(number("<I")) if kind == 8 else b"", place)


def edited(object: Optional[Object], edits: List[Edit]) -> Optional[Object]:
    """The object after edits that were answered for it. The one that is handed in stays as it is."""
    made = None if object is None else Object(object.data, dict(object.xattrs), dict(object.keys))
    for edit in edits:
        if edit.kind == "create":
            made = Object()
        elif edit.kind == "remove":
            made = None
        elif made is None:
            raise ValueError("these edits belong to another object")
        elif edit.kind == "truncate":
            made.data = made.data[: edit.at].ljust(edit.at, b"\0")
        elif edit.kind == "write":
            made.data = made.data[: edit.at].ljust(edit.at, b"\0") + edit.value + made.data[edit.at + len(edit.value) :]
        else:
            part = made.xattrs if edit.kind.endswith("xattr") else made.keys
            if edit.kind.startswith("set"):
                part[edit.name] = edit.value  # type: ignore[index]
            else:
                del part[edit.name]  # type: ignore[attr-defined]
    return made


def _texts(pairs: Mapping[bytes, bytes]) -> bytes:
    return b"".join(_number("<H", len(it)) + it for pair in sorted(pairs.items()) for it in pair)


class _Names:
    """What a call knows of an object's xattrs, or keys: the intervals that were looked at, and the entries in them."""

    def __init__(self) -> None:
        self.intervals: Dict[bytes, bytes] = {}
        self.entries: Dict[bytes, bytes] = {}

    def learn(self, low: bytes, high: bytes, found: Mapping[bytes, bytes]) -> None:
        """All names from one place to below another, b"" for the end of all, are these."""
        self.entries.update(found)
        for start, end in sorted(self.intervals.items()):
            if (not end or low <= end) and (not high or start <= high):
                low, high = min(low, start), b"" if not high or not end else max(high, end)
                del self.intervals[start]
        self.intervals[low] = high

    def learn_page(self, place: bytes, page: List[Tuple[bytes, bytes]], most: int) -> None:
        self.learn(place, page[-1][0] + b"\0" if len(page) >= most else b"", dict(page))

    def form(self) -> bytes:
        return b"".join(_number("<H", len(pairs)) + _texts(pairs) for pairs in (self.intervals, self.entries))


class _Part:
    """What a call knows of the object in a store, as it asks for more."""

    def __init__(self, store: Store, limits: Limits) -> None:
        self.store, self.size = store, store.size()
        self.blocks: Dict[int, bytes] = {}
        self.xattrs, self.keys, self.pages = _Names(), _Names(), 16
        if self.size is not None and limits.xattrs is not None:
            self.xattrs.learn(b"", b"", dict(store.xattrs_from(b"", 33)))
        if self.size is not None and limits.keys is not None:
            self.keys.learn(b"", b"", dict(store.keys_from(b"", 1025)))
        self.test()

    def form(self) -> bytes:
        if self.size is None:
            return b"\0"
        blocks = b"".join(struct.pack("<Q", number) + block for number, block in sorted(self.blocks.items()))
        return b"\1" + _number("<Q", self.size) + _number("<I", len(self.blocks)) + blocks + self.xattrs.form() + self.keys.form()

    def fetch(self, need: bytes) -> None:
        if need[0] == 1:
            first, count = struct.unpack("<QB", need[1:])
            at = first * BLOCK
            data = self.store.read(at, min(count * BLOCK, self.size - at))  # type: ignore[operator]
            for number in range(count):
                self.blocks[first + number] = data[number * BLOCK : (number + 1) * BLOCK]
            if len(self.blocks) > BLOCKS:
                raise Malformed("over 4 MiB of data are read")
            return
        name = need[3:]
        if need[0] in (2, 3):
            names, value = (self.xattrs, self.store.xattr(name)) if need[0] == 2 else (self.keys, self.store.key(name))
            names.learn(name, name + b"\0", {} if value is None else {name: value})
        else:
            names, ask, room = (self.keys, self.store.keys_from, 1024) if need[0] == 4 else (self.xattrs, self.store.xattrs_from, 32)
            most = max(1, min(self.pages, room - len(names.entries)))
            names.learn_page(name, ask(name, most), most)
            self.pages = min(256, self.pages * 4)
        self.test()

    def test(self) -> None:
        if len(self.xattrs.entries) > 32 or len(self.keys.entries) > 1024:
            raise Full("over 32 xattrs or 1,024 keys")


class Class:
    """A verified class. Several threads may use it at once: each call has a handle of its own, all of one class."""

    def __init__(self, image: bytes, budget: Optional[int] = None) -> None:
        """Verifies the class of an image. With a budget its methods may have loops, and declare no greater budget. Raises `Refused`,
        or MemoryError; ValueError if the budget isn't 1 to `BUDGET_LIMIT`."""
        if budget is not None and not 1 <= budget <= BUDGET_LIMIT:
            raise ValueError(f"{budget}: a budget is 1 to {BUDGET_LIMIT}")
        self._verified, refusal = _Verified(), _Refusal()
        self._lock = threading.Lock()
        self._free: List[_Verified] = []
        opened = [ctypes.byref(refusal), ctypes.byref(self._verified)]
        if budget is None:
            result = _calls.sillarnica_verified_open(*_slices(image), *opened)
        else:
            result = _calls.sillarnica_loops_open(*_slices(image), ctypes.c_uint32(budget), *opened)
        if result in (1, 2, -27):
            text = f"method {refusal.method} declares the budget {refusal.number}, greater than {budget}"
            text = text if result == -27 else _explained(image, budget is not None)
            raise Refused(text, refusal.kind, refusal.number, refusal.method, refusal.slot)
        if result:
            raise MemoryError("no memory for the class")

    @classmethod
    def open(cls, path: Union[str, "os.PathLike[str]"], budget: Optional[int] = None) -> "Class":
        """Verifies the class of an image in a file, as the class's own call does."""
        with open(path, "rb") as file:
            return cls(file.read(), budget)

    @property
    def methods(self) -> List[Method]:
        """The methods, in the order of their names."""
        found: List[Method] = []
        told, name = _Declared(), ctypes.create_string_buffer(64)
        with self._lock:
            while True:
                where = [ctypes.c_size_t(len(found)), ctypes.byref(told), name, ctypes.c_size_t(64)]
                result = _calls.sillarnica_verified_method_at(ctypes.byref(self._verified), *where)
                if result == -9:
                    raise ValueError("the class is closed")
                if result:
                    return found
                parts = (bool(told.needs & part) for part in (DATA, XATTRS, KEYS))
                flags = (bool(told.flags & 1), bool(told.flags & 2))
                found.append(Method(name.raw[: told.name_len].decode(), *flags, told.in_cap, told.out_cap, *parts))

    def call(self, method: str, input: bytes = b"", object: Optional[Object] = None, caller: int = 1) -> Reply:
        """Calls a method on an object for a client, whose number has 32 bits. Raises `NoMethod`, `InputTooLong`, `Malformed`, or
        MemoryError; ValueError if the class is closed, or for a number of more bits."""
        if not 0 <= caller < 1 << 32:
            raise ValueError(f"{caller}: a caller's number has 32 bits")
        form, name, room = _flat(object), method.encode(), 4096
        while True:
            result, answer, out = self._called(name, form, caller, input, room)
            if result != -34:
                break
            room = answer.output_len + answer.edits_len
        _raise(result, method)
        output, end = out[: answer.output_len], answer.output_len + answer.edits_len
        edits = [*_edits(out[answer.output_len : end])]
        return Reply(answer.code, output, answer.steps, edits, edited(object, edits))

    def call_on(self, store: Store, method: str, input: bytes = b"", caller: int = 1, limits: Limits = Limits()) -> Done:
        """Calls a method on the object of a store, which is asked for what the method touches and isn't changed: the edits are the
        caller's to make. Raises what `call` does, and `Full`."""
        if not 0 <= caller < 1 << 32:
            raise ValueError(f"{caller}: a caller's number has 32 bits")
        told = _Limits(limits.data, *(ANY_NUMBER if it is None else it for it in limits[1:3]), *limits[3:])
        part, name, room = _Part(store, limits), method.encode(), 4096
        while True:
            result, answer, need, out = self._called_part(name, part.form(), caller, told, input, room)
            if result == -11:
                part.fetch(need)
            elif result == -34:
                room = answer.output_len + answer.edits_len
            else:
                break
        if result == -28:
            raise Full("over 32 xattrs or 1,024 keys")
        _raise(result, method)
        end = answer.output_len + answer.edits_len
        return Done(answer.code, out[: answer.output_len], answer.steps, [*_edits(out[answer.output_len : end])])

    def _handle(self) -> _Verified:
        """A handle that no other call has: one that a call gave back, or another copy."""
        with self._lock:
            if self._verified.is_open == 1 and self._free:
                return self._free.pop()
            copy = _Verified()
            result = _calls.sillarnica_verified_copy(ctypes.byref(self._verified), ctypes.byref(copy))
        if result == -9:
            raise ValueError("the class is closed")
        if result:
            raise MemoryError("no memory for a handle")
        return copy

    def _give_back(self, handle: _Verified) -> None:
        with self._lock:
            if self._verified.is_open == 1:
                self._free.append(handle)
                return
        _calls.sillarnica_verified_close(ctypes.byref(handle))

    def _called(self, name: bytes, form: bytes, caller: int, text: bytes, room: int) -> Tuple[int, _Answer, bytes]:
        answer, out = _Answer(), ctypes.create_string_buffer(room)
        asked = [*_slices(name, form), ctypes.c_uint64(caller), *_slices(text)]
        written = [ctypes.byref(answer), out, ctypes.c_size_t(room)]
        handle = self._handle()
        try:
            result = _calls.sillarnica_verified_call(ctypes.byref(handle), *asked, *written)
        finally:
            self._give_back(handle)
        return result, answer, out.raw

    def _called_part(
        self, name: bytes, part: bytes, caller: int, limits: _Limits, text: bytes, room: int
    ) -> Tuple[int, _Answer, bytes, bytes]:
        answer, want, out = _Answer(), _Want(), ctypes.create_string_buffer(room)
        asked = [*_slices(name, part), ctypes.c_uint64(caller), ctypes.byref(limits), *_slices(text)]
        written = [ctypes.byref(answer), ctypes.byref(want), out, ctypes.c_size_t(room)]
        handle = self._handle()
        try:
            result = _calls.sillarnica_verified_call_part(ctypes.byref(handle), *asked, *written)
        finally:
            self._give_back(handle)
        return result, answer, bytes(want.bytes[: want.length]), out.raw

    def close(self) -> None:
        """Gives the memory back. Closing again does nothing."""
        with self._lock:
            for handle in [self._verified, *self._free]:
                _calls.sillarnica_verified_close(ctypes.byref(handle))
            self._free.clear()

    def __enter__(self) -> "Class":
        return self

    def __exit__(self, *_: object) -> None:
        self.close()

    def __del__(self) -> None:
        if hasattr(self, "_free"):
            self.close()


def _explained(image: bytes, may_loop: bool) -> str:
    text = ctypes.create_string_buffer(256)
    explain = _calls.sillarnica_loops_explain if may_loop else _calls.sillarnica_explain
    length = explain(*_slices(image), text, ctypes.c_size_t(256))
    return text.raw[: max(0, length)].decode()


def _raise(result: int, method: str) -> None:
    if result == -95:
        raise NoMethod(method)
    if result == -7:
        raise InputTooLong(f"{method}: the input is longer than its capacity")
    if result == -22:
        raise Malformed("the object is past a limit")
    if result == -9:
        raise ValueError("the class is closed")
    if result:
        raise MemoryError("no memory for the call")

"""A host in Python: `host.py LIBRARY IMAGE [OBJECT METHOD[@CALLER] HEX|-] ..` makes the calls in order. LIBRARY is a
shared object made of libsillarnica.a. An object is None, or its data and two dicts of names, all bytes."""
import ctypes, struct, sys


class Refusal(ctypes.Structure):
    _fields_ = [("kind", ctypes.c_uint32), ("number", ctypes.c_uint32), ("method", ctypes.c_uint64), ("slot", ctypes.c_int64)]


class Answer(ctypes.Structure):
    _fields_ = [("code", ctypes.c_int64), ("steps", ctypes.c_uint64), ("output_len", ctypes.c_uint64), ("edits_len", ctypes.c_uint64)]


class Verified(ctypes.Structure):
    _fields_ = [("held", ctypes.c_void_p), ("is_open", ctypes.c_uint32)]


class Limits(ctypes.Structure):
    _fields_ = [("bytes", ctypes.c_uint64)] + [(name, ctypes.c_uint32) for name in ("xattrs", "keys", "xattr_name", "key_name")]


class Want(ctypes.Structure):
    _fields_ = [("length", ctypes.c_uint32), ("bytes", ctypes.c_uint8 * 68)]


def flatten(object):
    """The flat form of an object."""
    if object is None:
        return b"\0"
    data, *parts = object
    form = b"\1" + struct.pack("<I", len(data)) + data
    for part in parts:
        form += struct.pack("<H", len(part))
        for name in sorted(part):
            form += struct.pack("<B", len(name)) + name + struct.pack("<H", len(part[name])) + part[name]
    return form


def edited(object, edits):
    """The object after edits."""
    if object is not None:
        object = (object[0], dict(object[1]), dict(object[2]))
    at = 0

    def take(n):
        nonlocal at
        at += n
        return edits[at - n:at]

    def number(form):
        return struct.unpack(form, take(struct.calcsize(form)))[0]

    while at < len(edits):
        kind = take(1)[0]
        if kind <= 2:
            object = (b"", {}, {}) if kind == 1 else None
        elif kind == 7:
            n = number("<Q")
            object = (object[0][:n].ljust(n, b"\0"), *object[1:])
        elif kind == 8:
            where, text = number("<Q"), take(number("<I"))
            object = (object[0][:where].ljust(where, b"\0") + text + object[0][where + len(text):], *object[1:])
        else:
            part, name = object[1 if kind <= 4 else 2], take(number("<H"))
            if kind % 2:
                part[name] = take(number("<H"))
            else:
                del part[name]
    return object


class Library:
    def __init__(self, path):
        self.calls = ctypes.CDLL(path)
        self.calls.sillarnica_explain.restype = self.calls.sillarnica_loops_explain.restype = ctypes.c_int64

    @staticmethod
    def slices(*texts):
        return [word for text in texts for word in (text, ctypes.c_size_t(len(text)))]

    def open(self, image, budget=None):
        """The result, and a handle of the image's class, which is to be closed. With a budget its methods may have loops."""
        verified = Verified()
        opened = [ctypes.byref(Refusal()), ctypes.byref(verified)]
        if budget is None:
            return self.calls.sillarnica_verified_open(*self.slices(image), *opened), verified
        return self.calls.sillarnica_loops_open(*self.slices(image), ctypes.c_uint32(budget), *opened), verified

    def close(self, verified):
        self.calls.sillarnica_verified_close(ctypes.byref(verified))

    def explain(self, image, may_loop=False):
        text = ctypes.create_string_buffer(256)
        explain = self.calls.sillarnica_loops_explain if may_loop else self.calls.sillarnica_explain
        length = explain(*self.slices(image), text, ctypes.c_size_t(256))
        return text.raw[:max(0, length)].decode()

    def call(self, of, method, form, caller, text, room=1 << 16):
        """The result, the answer, the output and the edits of a call of an image or of a handle; with a larger buffer where
        the first is too small."""
        answer, out = Answer(), ctypes.create_string_buffer(room)
        asked = [*self.slices(method, form), ctypes.c_uint64(caller), *self.slices(text)]
        told = [ctypes.byref(answer), out, ctypes.c_size_t(room)]
        if isinstance(of, Verified):
            result = self.calls.sillarnica_verified_call(ctypes.byref(of), *asked, *told)
        else:
            result = self.calls.sillarnica_call(*self.slices(of), *asked, ctypes.byref(Refusal()), *told)
        if result == -34:
            return self.call(of, method, form, caller, text, answer.output_len + answer.edits_len)
        end = answer.output_len + answer.edits_len
        return result, answer, out.raw[:answer.output_len], out.raw[answer.output_len:end]

    def call_part(self, verified, method, part, caller, limits, text, room=1 << 16):
        """The same of a handle, on a part of an object, by five limits; and the need before the output."""
        answer, want, out = Answer(), Want(), ctypes.create_string_buffer(room)
        asked = [*self.slices(method, part), ctypes.c_uint64(caller), ctypes.byref(Limits(*limits)), *self.slices(text)]
        told = [ctypes.byref(answer), ctypes.byref(want), out, ctypes.c_size_t(room)]
        result = self.calls.sillarnica_verified_call_part(ctypes.byref(verified), *asked, *told)
        if result == -34:
            return self.call_part(verified, method, part, caller, limits, text, answer.output_len + answer.edits_len)
        end = answer.output_len + answer.edits_len
        return result, answer, bytes(want.bytes[:want.length]), out.raw[:answer.output_len], out.raw[answer.output_len:end]


def main(path, image, *words):
    library, objects = Library(path), {}
    image = open(image, "rb").read()
    result, verified = library.open(image)
    if result:
        print(library.explain(image) or "no memory")
        return 1
    for name, method, text in zip(*[iter(words)] * 3):
        before = objects.get(name)
        method, _, caller = method.partition("@")
        text = b"" if text == "-" else bytes.fromhex(text)
        result, answer, output, edits = library.call(verified, method.encode(), flatten(before), int(caller or 1), text)
        if result:
            print(f"refused {result}")
            continue
        after = objects[name] = edited(before, edits)
        shown = "absent" if after is None else " ".join(str(len(part)) for part in after)
        print(f"code {answer.code} output {output.hex() or '-'} steps {answer.steps} object {shown}")
    library.close(verified)
    return 0


if __name__ == "__main__":
    sys.exit(main(*sys.argv[1:]))

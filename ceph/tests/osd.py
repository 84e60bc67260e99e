"""Where the tests' calls go: to the OSDs of a cluster, or to the plug-in's functions over the stand-in of an
OSD's calls.
"""

import faulthandler
import importlib.machinery
import importlib.util
import os
import random
import struct
import subprocess
import sys
import threading
import time

sys.dont_write_bytecode = True
here = os.path.dirname(os.path.abspath(__file__))
sys.path.insert(0, here)

import model  # noqa: E402

STALLED = 300  # seconds, in which a test's next call is answered, also on a machine that others use
REPLY_LIMIT, OBJECT_LIMIT = 64, 128 << 20  # osd_max_write_op_reply_len and osd_max_object_size, as they are shipped
SAME = object()  # what earlier steps left is what was before
# Where the stand-in's calls come from, in an OSD's memory: type 3, a nonce, IPv4's family, port, address.
SENDER = struct.pack("<IIH", 3, 123456, 2) + b"\0\7" + bytes((10, 1, 2, 3)) + bytes(8)
TIME, VERSION = 1700000000123456789, 77


def load_command():
    """The command radosbpf as a module: the installed one, or the one beside this folder."""
    path = os.environ.get("RADOSBPF", os.path.join(here, "..", "radosbpf"))
    loader = importlib.machinery.SourceFileLoader("radosbpf", path)
    module = importlib.util.module_from_spec(importlib.util.spec_from_loader("radosbpf", loader))
    loader.exec_module(module)
    return module


radosbpf = load_command()
request, load_request = radosbpf.request, radosbpf.load_request


class StandIn:
    """The plug-in over the stand-in: objects are kept here, and each call carries its own."""

    def __init__(self, program, folder):
        self.words = [program, folder]
        self.process = subprocess.Popen(self.words, stdin=subprocess.PIPE, stdout=subprocess.PIPE)
        self.objects = {}  # by name: an Object, its loaded classes, its omap header
        self.client = 4711
        self.calls = 0
        self.opened = self._read_bytes().decode().splitlines()  # the log of the classes' opening

    def number(self):
        return self.client

    def close(self):
        self.process.stdin.close()
        if self.process.wait(60) != 0:
            raise AssertionError(f"the stand-in ended with {self.process.returncode}")

    def put(self, oid, whole, classes=(), header=b""):
        self.objects.pop(oid, None)
        if whole is not None:
            self.objects[oid] = (whole.copy(), dict(classes), header)

    def get(self, oid):
        return self.objects[oid][0] if oid in self.objects else None

    def whole(self, oid):
        """Object, loaded classes and omap header."""
        return self.objects.get(oid)

    def call(
        self,
        oid,
        method,
        data=b"",
        cls="bpf",
        step=0,
        limit=REPLY_LIMIT,
        most=OBJECT_LIMIT,
        size=0,
        kind=8,
        number=None,
        sender=SENDER,
        failing=0,
        growth=0,
        new=0,
        left=SAME,
    ):
        """One call. Where it isn't the first step of its operation, `left` is what the earlier steps left: the object
        with its classes and header. `most` is osd_max_object_size, and `size` the data's length as the OSD says it, if not
        as it is.
        """
        caller = self.client if number is None else number
        fields = self._sender(kind, caller, sender)
        fields += struct.pack("<IIQQIII", step, limit, most, size, failing, growth, new)
        asked = self._call(cls, method, data, fields, self.whole(oid))
        if step:
            asked += self._object(self.whole(oid) if left is SAME else left)
        self._write(b"\0" + asked)
        result = struct.unpack("<i", self._read(4))[0]
        output, after = self._read_bytes(), self._read_object()
        self.osd_calls, self.growths, self.news = struct.unpack("<III", self._read(12))
        self.calls += 1
        misuse = self._read_bytes().decode()
        self.trace, self.log = (self._read_bytes().decode().splitlines() for _ in range(2))
        if result < 0 and not (failing or growth or new) and any(self.changes()):
            misuse += f"a refused call changes: {self.trace}"
        assert not misuse, f"{misuse} at {cls} {method} of {data[:80].hex()}"
        if after is None:
            self.objects.pop(oid, None)
        else:
            self.objects[oid] = after
        return result, output

    def changes(self):
        """What the last call changed, by its lines."""
        return [line for line in self.trace if line.split()[0] in ("create", "remove", "write", "truncate", "set")]

    def together(self, threads, times, calls):
        """How many of such calls, made by threads at once, are answered other than by one alone. A call is the object,
        class, method and request.
        """
        fields = self._sender(8, self.client, SENDER) + struct.pack("<IIQQIII", 0, REPLY_LIMIT, OBJECT_LIMIT, 0, 0, 0, 0)
        made = [self._call(cls, method, data, fields, self.whole(oid)) for oid, cls, method, data in calls]
        self._write(b"\1" + struct.pack("<III", threads, times, len(made)) + b"".join(made))
        return struct.unpack("<I", self._read(4))[0]

    def environment(self, header=b""):
        """What an installed class sees besides the object."""
        return model.environment(self.client, SENDER, TIME, VERSION, header)

    def _sender(self, kind, caller, sender):
        return struct.pack("<BQ", kind, caller) + self._bytes(sender) + struct.pack("<QQ", TIME, VERSION)

    def _write(self, out):
        self.process.stdin.write(out)
        self.process.stdin.flush()

    def _call(self, cls, method, data, fields, whole):
        words = (cls.encode(), method.encode(), data)
        return b"".join(map(self._bytes, words)) + fields + self._object(whole)

    @staticmethod
    def _bytes(data):
        return struct.pack("<I", len(data)) + data

    def _object(self, held):
        if held is None:
            return b"\0"
        whole, classes, header = held
        out = b"\1" + self._bytes(whole.data) + self._bytes(header)
        for part in ({**whole.xattrs, **{b"bpf." + name: image for name, image in classes.items()}}, whole.keys):
            out += struct.pack("<I", len(part)) + b"".join(
                self._bytes(name) + self._bytes(value) for name, value in part.items()
            )
        return out

    def _read(self, length):
        data = self.process.stdout.read(length)
        assert len(data) == length, "the stand-in ended in a call"
        return data

    def _read_bytes(self):
        return self._read(struct.unpack("<I", self._read(4))[0])

    def _read_object(self):
        if self._read(1) == b"\0":
            return None
        whole, classes = model.Object(self._read_bytes()), {}
        header = self._read_bytes()
        for part in (whole.xattrs, whole.keys):
            for _ in range(struct.unpack("<I", self._read(4))[0]):
                name = self._read_bytes()
                part[name] = self._read_bytes()
        for name in [name for name in whole.xattrs if name.startswith(b"bpf.")]:
            classes[name[4:]] = whole.xattrs.pop(name)
        return whole, classes, header


class Cluster:
    """The same of a pool in a cluster, by a session of its own."""

    def __init__(self, conf, pool="bpf", name="client.admin", namespace="", keyring=None, timeout=120):
        self.pool = radosbpf.Pool(pool, conf, name, keyring, timeout, namespace)
        self.c, self.io = self.pool.c, self.pool.io

    def number(self):
        return self.pool.number()

    def close(self):
        self.pool.close()

    def _must(self, result):
        assert result >= 0, os.strerror(-result)

    def put(self, oid, whole, classes=(), header=b""):
        import ctypes as ct

        name = oid.encode()
        self.c.rados_remove(self.io, name)
        if whole is None:
            return
        op = ct.c_void_p(self.c.rados_create_write_op())
        self.c.rados_write_op_create(op, 0, None)
        self.c.rados_write_op_write_full(op, whole.data, ct.c_size_t(len(whole.data)))
        for key, value in [*whole.xattrs.items(), *((b"bpf." + key, value) for key, value in dict(classes).items())]:
            self.c.rados_write_op_setxattr(op, key, value, ct.c_size_t(len(value)))
        if whole.keys:
            count = len(whole.keys)
            keys, values = (ct.c_char_p * count)(*whole.keys), (ct.c_char_p * count)(*whole.keys.values())
            key_lengths = (ct.c_size_t * count)(*map(len, whole.keys))
            lengths = (ct.c_size_t * count)(*map(len, whole.keys.values()))
            self.c.rados_write_op_omap_set2(op, keys, values, key_lengths, lengths, ct.c_size_t(count))
        self._must(self.c.rados_write_op_operate2(op, self.io, name, None, 0))
        self.c.rados_release_write_op(op)

    def get(self, oid):
        found = self.pool.read(oid.encode())
        return None if found is None else model.Object(found.data, found.xattrs, found.keys)

    def call(self, oid, method, data=b"", cls="bpf"):
        done, [(result, output)] = self.pool.steps(oid.encode(), [(method, data)], cls=cls.encode())
        return (done, b"") if done < 0 else (result, output)

    def steps(self, oid, steps):
        return self.pool.steps(oid.encode(), steps)

    def plain(self, oid, method, data=b"", cls="bpf"):
        """As `rados_exec` does it, without RETURNVEC."""
        import ctypes as ct

        out = ct.create_string_buffer(65536)
        result = self.c.rados_exec(
            self.io, oid.encode(), cls.encode(), method.encode(), data, ct.c_size_t(len(data)), out, ct.c_size_t(65536)
        )
        return result, out.raw[: max(result, 0)]


def open_from(words):
    """`cluster CONF`, or `stand-in PROGRAM FOLDER`."""
    return Cluster(words[1]) if words[0] == "cluster" else StandIn(*words[1:3])


class Tally:
    """Counts what was as it should be, and tells what wasn't."""

    def __init__(self, title):
        self.title, self.right, self.wrong, self.last = title, 0, 0, time.monotonic()
        threading.Thread(target=self._watch, daemon=True).start()

    def _watch(self):
        """Ends a test that stands still as `timeout` does, and tells where its threads are."""
        while time.monotonic() < self.last + STALLED:
            time.sleep(1)
        print(f"BAD  {self.title}: nothing was answered for {STALLED} seconds", flush=True)
        faulthandler.dump_traceback()
        os._exit(124)

    def want(self, what, found, wanted):
        self.last = time.monotonic()
        if found == wanted:
            self.right += 1
        else:
            self.wrong += 1
            if self.wrong <= 20:
                print(f"BAD  {self.title}: {what}: {found!r:.600}, not {wanted!r:.600}", flush=True)

    def end(self):
        is_good = self.right and not self.wrong
        print(f"{'ok  ' if is_good else 'BAD '} {self.title}: {self.right} right, {self.wrong} wrong", flush=True)
        sys.exit(0 if is_good else 1)


def images_in(folder):
    """The class images of a folder, by the files' names."""
    found = {}
    for file in sorted(os.listdir(folder)):
        if file.endswith(".img"):
            with open(os.path.join(folder, file), "rb") as opened:
                found[file[:-4].encode()] = opened.read()
    return found


def some_object(chance):
    """An object to begin with, or none."""
    if chance.random() < 0.15:
        return None
    pairs = lambda most, size: {
        random_name(chance): chance.randbytes(chance.randrange(size)) for _ in range(chance.randrange(most))
    }
    whole = model.Object(chance.randbytes(chance.choice([0, 7, 64, 500, 4000])), pairs(5, 40), pairs(8, 40))
    past = chance.random()  # now and then large, or with what no call may meet
    many = lambda *counts: {b"%04d" % n: b"v" for n in range(chance.choice(counts))}
    if past < 0.04:
        whole.data = chance.randbytes(chance.choice([8192, 65536, 65537, 300000]))
    elif past < 0.07:
        whole.xattrs.update(many(26, 27, 28, 31, 32, 33, 40))
    elif past < 0.09:
        whole.keys.update(many(16, 17, 100, 1024, 1025, 3000))
    elif past < 0.11:
        chance.choice([whole.xattrs, whole.keys])[chance.choice([b"a", b"d", b"k" * 65])] = chance.randbytes(4097)
    elif past < 0.12:
        chance.choice([whole.xattrs, whole.keys])[chance.choice([b"c", b"k"]) * 65] = b"v"
    return whole


def random_name(chance):
    return bytes([chance.choice(b"abcdefgh")]) * chance.choice([1, 1, 1, 2, 64])


def seeded(seed):
    return random.Random(seed)

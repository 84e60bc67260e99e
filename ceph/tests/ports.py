#!/usr/bin/env python3
"""The classes of examples/ceph in place of Ceph's own: random calls, each beside the model of examples/ceph/check.py;
and the lock as Ceph's clients call it, librados and the commands `rados` and `rbd`.

    ports.py IMAGES CONF CALLS

CONF is that of a cluster of ceph/ports.sh; each class gets so many calls.
"""

import base64
import ctypes
import json
import os
import struct
import subprocess
import sys
import time

import osd
from model import Object, methods_of

sys.path.insert(0, os.path.join(osd.here, "..", "..", "examples", "ceph"))

import check  # noqa: E402

SIZE = ctypes.c_size_t
RENEW, MUST_RENEW = 1, 2  # LIBRADOS_LOCK_FLAG_..
ENTRIES = 5  # of the environment, without a header


def held(whole):
    """A model's object as the tests have it."""
    return None if whole is None else Object(whole.data, whole.xattrs, whole.keys)


def text_of(session):
    """A client's address as librados has it."""
    found = ctypes.c_char_p()
    assert session.c.rados_getaddrs(session.pool.cluster, ctypes.byref(found)) == 0
    return found.value.decode()


def address_of(text):
    """In Ceph's encoding."""
    kind, text = (int(text[1]), text[3:]) if text[0] == "v" else (3, text)
    host, nonce = text.split("/")
    host, port = host.split(":")
    socket = struct.pack("<H", 2) + struct.pack(">H", int(port)) + bytes(map(int, host.split("."))) + bytes(8)
    return b"\1" + check.versioned(struct.pack("<III", kind, int(nonce), 16) + socket)


def drawn_for(whole):
    """The random bytes that a version's tag was made of."""
    try:
        tag = check.read_version(check.Decoder(whole.xattrs[b"ceph.objclass.version"], 128))[1]
        return base64.b64decode(tag, validate=True)[:16].ljust(16, b"\0")
    except (AttributeError, KeyError, ValueError, check.Fail):
        return bytes(16)


def lock_of(value):
    """Lockers, type and tag."""
    return check.read_lock(check.Decoder(value, check.VALUE))


def with_times(wanted, found, slack):
    """An object whose lockers expire when they do in another, if that isn't earlier, nor later by more than this."""
    moment = lambda value: struct.unpack_from("<II", value, 6)
    for name in wanted.xattrs if wanted and found else ():
        try:
            ours, theirs = (lock_of(whole.xattrs[name]) for whole in (wanted, found))
        except (KeyError, check.Fail):
            continue
        for key, value in ours[0].items():
            other = theirs[0].get(key, value)
            later = (moment(other)[0] - moment(value)[0]) * 10**9 + moment(other)[1] - moment(value)[1]
            if 0 < later <= slack:
                ours[0][key] = value[:6] + other[6:14] + value[14:]
        wanted.xattrs[name] = check.write_lock(*ours)
    return wanted


class Native(check.Play):
    """The random calls of a class, made in the cluster, by three sessions."""

    entries = ENTRIES

    def __init__(self, which, image, sessions, tally):
        super().__init__(which)
        self.which, self.methods, self.tally = which, methods_of(image), tally
        self.sessions = dict(zip(check.CLIENTS, sessions))
        self.addresses = {client: address_of(text_of(session)) for client, session in self.sessions.items()}

    def answer(self, model, before, client, method, given, environment):
        """The model's, of an installed class."""
        declared = self.methods[method.encode()]
        if declared.flags == 1 and before is None:
            return None, -check.ENOENT, b""  # the OSD answers a read of an absent object
        if len(given) > declared.in_cap:
            return before, -check.EINVAL, b""
        made, result = check.Object(), None
        for whole, entries in ((before and before.copy(), environment), (made, {**environment, b"\0made": b""})):
            if whole:
                whole.xattrs.update(entries)
            try:
                result = model(whole, client, method, given)
                break
            except check.Fail as fail:
                result = before, fail.args[0], b""
                if before or declared.flags == 1 or fail.args[0] != -check.WITH_OBJECT:
                    break
        after, code, output = result
        if after:
            after.xattrs = {name: value for name, value in after.xattrs.items() if name[:1] != b"\0"}
        return after, code, output

    def call(self, model, name, method, given, client=None):
        client, before = client or self.r.choice(check.CLIENTS), self.objects.get(name)
        started = time.time_ns()
        found = self.sessions[client].call(self.oid(name), method, given, cls=self.which)
        took, there = time.time_ns() - started, self.sessions[check.CLIENTS[0]].get(self.oid(name))
        environment = {
            b"\0address": self.addresses[client],
            b"\0entity": b"client.%d" % client,
            b"\0random": drawn_for(there),
            b"\0time": struct.pack("<Q", started),
            b"\0version": bytes(8),
        }
        after, code, output = self.answer(model, before, client, method, given, environment)
        if self.which == "lock":
            after = with_times(after, there, took)
        # (that one sets an xattr also to what it is)
        writes = method == "write_too_much_return_data" or held(after) != held(before)
        if writes and len(output) > osd.REPLY_LIMIT:
            code, output, after = -105, b"", before
        self.objects[name] = after
        self.tally.want(f"{self.which}.{method} {given.hex()} on {held(before)}", found, (code, output))
        self.look(name)

    def look(self, name):
        found = self.sessions[check.CLIENTS[0]].get(self.oid(name))
        self.tally.want(f"{self.which}: the object {name}", found, held(self.objects.get(name)))

    def put_entry(self, name):
        """The OSD has its own."""

    def changed(self, name):
        self.sessions[check.CLIENTS[0]].put(self.oid(name), held(self.objects.get(name)))

    def oid(self, name):
        return f"{self.which}.{name}"


def try_calls(tally, images, sessions, calls):
    check.CLIENTS[:] = [session.number() for session in sessions]
    # An OSD's objects have any number of them.
    check.Object.most_xattrs = check.Object.most_keys = None
    # Those that last are longer than the test.
    check.DURATIONS[:] = [each for each in check.DURATIONS if each[0] > 900 or each == (0, 1)]
    for which in check.CLASSES:
        play = Native(which, images[which.encode()], sessions, tally)
        for name in ("o", "p", "q"):
            sessions[0].put(play.oid(name), None)
        check.play(which, calls, play)


# The lock, as librados' calls of its own take it.


class Locks:
    """A session that locks one object, by a name."""

    def __init__(self, session, oid=b"locked", name=b"one"):
        self.c, self.io, self.oid, self.name = session.c, session.io, oid, name
        self.client, self.address = b"client.%d" % session.number(), text_of(session).encode()

    def exclusive(self, cookie, flags=0, duration=None):
        return self.c.rados_lock_exclusive(
            self.io, self.oid, self.name, cookie, b"why", duration, ctypes.c_uint8(flags)
        )

    def shared(self, cookie, tag, flags=0):
        return self.c.rados_lock_shared(
            self.io, self.oid, self.name, cookie, tag, b"why", None, ctypes.c_uint8(flags)
        )

    def unlock(self, cookie):
        return self.c.rados_unlock(self.io, self.oid, self.name, cookie)

    def break_lock(self, client, cookie):
        return self.c.rados_break_lock(self.io, self.oid, self.name, client, cookie)

    def lockers(self, has_addresses=False):
        """How many there are, whether the lock is exclusive, its tag, and who has it by which cookie, or from where."""
        is_exclusive, rooms = ctypes.c_int(), [ctypes.create_string_buffer(1000) for _ in range(4)]
        sizes = [SIZE(1000) for _ in rooms]
        words = [word for pair in zip(rooms, map(ctypes.byref, sizes)) for word in pair]
        self.c.rados_list_lockers.restype = ctypes.c_ssize_t
        count = self.c.rados_list_lockers(self.io, self.oid, self.name, ctypes.byref(is_exclusive), *words)
        if count < 0:
            return count
        tag, clients, cookies, addresses = (room.raw[: size.value] for room, size in zip(rooms, sizes))
        pairs = zip(clients.split(b"\0"), (addresses if has_addresses else cookies).split(b"\0"))
        return count, is_exclusive.value, tag.rstrip(b"\0"), sorted(pair for pair in pairs if pair[0])


def try_librados(tally, sessions):
    """Each of librados' five calls of the lock: what it answers, and who has the lock then."""
    me, you = (Locks(session) for session in sessions[:2])
    sessions[0].put("locked", None)
    none, mine = (0, 1, b"", []), (1, 1, b"", [(me.client, b"a")])
    both = 2, 0, b"tag", sorted([(me.client, b"a"), (you.client, b"a")])
    yours = 1, 0, b"tag", [(you.client, b"a")]
    for what, answer, result, lockers in (
        ("an absent object is locked", lambda: me.exclusive(b"a"), 0, mine),
        ("again", lambda: me.exclusive(b"a"), -17, mine),
        ("renewed", lambda: me.exclusive(b"a", RENEW), 0, mine),
        ("by another cookie", lambda: me.exclusive(b"b"), -16, mine),
        ("by another client", lambda: you.exclusive(b"a"), -16, mine),
        ("shared by another client", lambda: you.shared(b"a", b""), -16, mine),
        ("unlocked by another client", lambda: you.unlock(b"a"), -2, mine),
        ("unlocked by another cookie", lambda: me.unlock(b"b"), -2, mine),
        ("unlocked", lambda: me.unlock(b"a"), 0, none),
        ("unlocked again", lambda: me.unlock(b"a"), -2, none),
        ("shared", lambda: you.shared(b"a", b"tag"), 0, yours),
        ("shared by both", lambda: me.shared(b"a", b"tag"), 0, both),
        ("shared by another tag", lambda: me.shared(b"b", b"other"), -16, both),
        ("exclusive beside them", lambda: me.exclusive(b"b"), -16, both),
        ("broken", lambda: you.break_lock(me.client, b"a"), 0, yours),
        ("broken again", lambda: you.break_lock(me.client, b"a"), -2, yours),
        ("broken, no client", lambda: you.break_lock(b"somebody", b"a"), -22, yours),
        ("the last one unlocks", lambda: you.unlock(b"a"), 0, (0, 0, b"tag", [])),
        ("another tag then", lambda: me.exclusive(b"a"), 0, mine),
    ):
        tally.want(f"librados: {what}", answer(), result)
        tally.want(f"librados: the lockers after: {what}", me.lockers(), lockers)
    absent = Locks(sessions[0], b"absent")
    tally.want("librados: lockers of an absent object", absent.lockers(), -2)
    tally.want("librados: an absent object is unlocked", absent.unlock(b"a"), -2)


def try_durations(tally, sessions):
    """Locks that expire, and who has them from where."""
    me, you = (Locks(session, b"timed") for session in sessions[:2])
    second, long = (ctypes.c_long * 2)(1, 0), (ctypes.c_long * 2)(100, 500000)  # each a timeval
    none, mine = (0, 1, b"", []), (1, 1, b"", [(me.client, b"a")])
    sessions[0].put("timed", None)
    for what, answer, result, lockers in (
        ("a second, of an absent object", lambda: me.exclusive(b"a", 0, second), 0, mine),
        ("again", lambda: me.exclusive(b"a", 0, second), -17, mine),
        ("by another client", lambda: you.exclusive(b"a"), -16, mine),
        ("renewed", lambda: me.exclusive(b"a", RENEW, second), 0, mine),
        ("it has to be renewed", lambda: me.exclusive(b"a", MUST_RENEW, second), 0, mine),
        ("it expires", lambda: time.sleep(1.1), None, none),
        ("it can't be unlocked", lambda: me.unlock(b"a"), -2, none),
        ("nor renewed, if it has to", lambda: me.exclusive(b"a", MUST_RENEW, second), -2, none),
        ("it may be renewed", lambda: me.exclusive(b"a", RENEW, second), 0, mine),
        ("it expires again", lambda: time.sleep(1.1), None, none),
        ("a hundred seconds", lambda: me.exclusive(b"a", 0, long), 0, mine),
        ("a second more", lambda: time.sleep(1.1), None, mine),
        ("by another client then", lambda: you.exclusive(b"a"), -16, mine),
        ("shared", lambda: you.shared(b"a", b""), -16, mine),
        ("for good", lambda: me.exclusive(b"a", RENEW), 0, mine),
    ):
        tally.want(f"a lock of a duration: {what}", answer(), result)
        tally.want(f"its lockers after: {what}", me.lockers(), lockers)
    tally.want("from where", me.lockers(True)[3], [(me.client, b"v1:" + me.address)])
    value = sessions[0].get("timed").xattrs[b"lock.one"]
    lockers = lock_of(value)[0]
    address = address_of("v1:" + me.address.decode())
    tally.want("an address of the type legacy", [each[14:49] for each in lockers.values()], [address])


def try_rados(tally, conf, session):
    """The command `rados lock`."""

    def rados(*words):
        ended = subprocess.run(
            ["rados", "-c", conf, "-p", "bpf", "lock", *words], stdout=subprocess.PIPE, stderr=subprocess.DEVNULL, timeout=120
        )
        return ended.returncode, json.loads(ended.stdout) if ended.stdout.startswith(b"{") else None

    def info(of):
        status, said = rados("info", "told", of)
        lockers = [(each["cookie"], each["description"]) for each in said["lockers"]]
        return status, said["type"], said["tag"], lockers, [each["name"] for each in said["lockers"]]

    session.put("told", Object(b"", {b"x": b"1", b"lock": b"2", b"lock-": b"3", b"lock/": b"4"}))
    tally.want("rados lock list, of none", rados("list", "told"), (0, {"objname": "told", "locks": []}))
    own = ("--lock-cookie", "a", "--lock-description", "why")
    tally.want("rados lock get", rados("get", "told", "one", *own)[0], 0)
    tally.want("rados lock get, of another session", rados("get", "told", "one", *own)[0] != 0, True)
    shared = ("--lock-type", "shared", "--lock-tag", "tag")
    for cookie in "ab":
        tally.want(f"rados lock get, shared {cookie}", rados("get", "told", "two", *shared, "--lock-cookie", cookie)[0], 0)
    listed = {"objname": "told", "locks": [{"name": "one"}, {"name": "two"}]}
    tally.want("rados lock list", rados("list", "told"), (0, listed))
    *found, names = info("one")
    tally.want("rados lock info", found, [0, "exclusive", "", [("a", "why")]])
    *found, two = info("two")
    tally.want("rados lock info, shared", (found[:3], sorted(found[3])), ([0, "shared", "tag"], [("a", ""), ("b", "")]))
    tally.want("rados lock break", rados("break", "told", "one", *names, "--lock-cookie", "a")[0], 0)
    tally.want("rados lock break, again", rados("break", "told", "one", *names, "--lock-cookie", "a")[0] != 0, True)
    *found, names = info("one")
    tally.want("rados lock info, of no locker", (found, names), ([0, "exclusive", "", []], []))


def try_rbd(tally, conf, session):
    """The command `rbd`: its own class is Ceph's, the lock of an image's header is ours."""

    def rbd(*words):
        whole = ["rbd", "-c", conf, "-p", "bpf", *words]
        ended = subprocess.run(whole, stdout=subprocess.PIPE, stderr=subprocess.DEVNULL, timeout=300)
        return ended.returncode, json.loads(ended.stdout) if "json" in words else None

    def lockers(image):
        return sorted((each["id"], each["locker"]) for each in rbd("lock", "ls", image, "--format", "json")[1])

    image = ("--size", "4M", "--image-feature")
    tally.want("rbd create", rbd("create", "told", *image, "layering")[0], 0)
    tally.want("rbd lock ls, of none", lockers("told"), [])
    tally.want("rbd lock add", rbd("lock", "add", "told", "mine")[0], 0)
    tally.want("rbd lock add, of another session", rbd("lock", "add", "told", "mine")[0], 16)
    [(cookie, locker)] = lockers("told")
    tally.want("rbd lock ls", cookie, "mine")
    header = "rbd_header." + rbd("info", "told", "--format", "json")[1]["id"]
    value = session.get(header).xattrs[b"lock.rbd_lock"]
    tally.want("the header's lock", [*lock_of(value)[0]] != [], True)
    tally.want("rbd lock rm", rbd("lock", "rm", "told", "mine", locker)[0], 0)
    for cookie in "ab":
        tally.want(f"rbd lock add, shared {cookie}", rbd("lock", "add", "--shared", "tag", "told", cookie)[0], 0)
    tally.want("rbd lock ls, shared", [cookie for cookie, _ in lockers("told")], ["a", "b"])
    # librbd takes this image's lock itself before it writes, and gives it back.
    tally.want("rbd create, with an exclusive lock", rbd("create", "own", *image, "layering,exclusive-lock")[0], 0)
    write = ("--io-type", "write", "--io-size", "4K", "--io-total", "64K")
    tally.want("rbd bench", rbd("bench", "own", *write)[0], 0)
    tally.want("rbd snap create", rbd("snap", "create", "own@one")[0], 0)
    tally.want("it is unlocked", lockers("own"), [])
    tally.want("rbd lock add, by hand", rbd("lock", "add", "own", "mine")[0], 0)
    tally.want("rbd lock rm, by hand", rbd("lock", "rm", "own", *lockers("own")[0])[0], 0)
    tally.want("rbd resize", rbd("resize", "own", "--size", "8M")[0], 0)


def main(words):
    folder, conf, calls = words
    tally = osd.Tally("Ceph's classes in C, under their names")
    sessions = [osd.Cluster(conf) for _ in range(3)]
    try_calls(tally, osd.images_in(folder), sessions, int(calls))
    try_librados(tally, sessions)
    try_durations(tally, sessions)
    try_rados(tally, conf, sessions[0])
    try_rbd(tally, conf, sessions[0])
    for session in sessions:
        session.close()
    tally.end()


if __name__ == "__main__":
    main(sys.argv[1:])

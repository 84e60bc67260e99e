#!/usr/bin/env python3
"""What a tenant may do by the caps of docs/CEPH.md: `exec` and `query` in one namespace of one pool, and nothing
else anywhere.

    rights.py IMAGES CONF USER KEYRING

The caps name the pool `bpf` and the namespace `tenant`; there is another pool, `coded`.
"""

import ctypes
import struct
import sys

import osd
from model import Object
from osd import load_request, request

HOME = ("bpf", "tenant")
PLACES = [HOME, ("bpf", ""), ("bpf", "other"), ("bpf", "tenant2"), ("coded", "tenant"), ("coded", "")]
TEXT = Object(b"text", {b"x": b"1"})


def frame(code, steps, output=b""):
    return 0, struct.pack("<qQ", code, steps) + output


def methods(images):
    """Each method of the class `bpf`, with a request; those that may change something remove the object or a class."""
    remove, read = request(b"helpers", b"remove", b"", False), request(b"helpers", b"getxattr", b"x", False)
    remove_sent = request(images[b"helpers"], b"remove", b"", True)
    read_sent = request(images[b"helpers"], b"getxattr", b"x", True)
    return [
        ("verify", images[b"lock"]),
        ("list", b""),
        ("classes", b""),
        ("stats", b""),
        ("nothing", b""),
        ("query", read),
        ("see", read),
        ("query_sent", read_sent),
        ("see_sent", read_sent),
        ("load", load_request(b"new", images[b"lock"])),
        ("unload", load_request(b"lock")),
        ("exec", remove),
        ("run", remove),
        ("exec_sent", remove_sent),
        ("run_sent", remove_sent),
    ]


def try_place(tally, place, admin, tenant, images):
    for way, data in methods(images):
        if place == HOME and way in ("exec", "query"):
            continue
        admin.put("o", TEXT, images)
        tally.want(f"{way} in {place}", tenant.call("o", way, data), (-1, b""))
        tally.want(f"the object after {way} in {place}", admin.get("o"), TEXT)
        tally.want(f"{way} in {place}, by who may do it", admin.call("o", way, data)[0] in (0, 1), True)


def try_home(tally, admin, tenant, images):
    """`exec` and `query` call the classes that are loaded there; the OSD's own steps are refused."""
    sent = lambda method, data=b"": request(b"helpers", method, data, False)
    admin.put("o", TEXT, images)
    tally.want("query reads", tenant.call("o", "query", sent(b"getxattr", b"x")), frame(1, 8, b"1"))
    tally.want("a loaded class", tenant.call("o", "exec", request(b"lock", b"lock", b"me", False)), frame(0, 22))
    tally.want("exec writes", tenant.call("o", "exec", sent(b"write", bytes(8) + b"other")), frame(5, 8))
    tally.want("it is written", admin.get("o").data, b"other")
    tally.want("exec removes", tenant.call("o", "exec", sent(b"remove")), frame(0, 2))
    tally.want("it is removed", admin.get("o"), None)
    admin.put("o", TEXT, images)
    room = ctypes.create_string_buffer(4)
    tally.want("rados read", tenant.c.rados_read(tenant.io, b"o", room, ctypes.c_size_t(4), ctypes.c_uint64(0)), -1)
    tally.want("rados remove", tenant.c.rados_remove(tenant.io, b"o"), -1)


def main(words):
    images, (conf, user, keyring) = osd.images_in(words[0]), words[1:]
    tally = osd.Tally(f"rights of {user}")
    for place in PLACES:
        admin = osd.Cluster(conf, place[0], namespace=place[1])
        tenant = osd.Cluster(conf, place[0], user, place[1], keyring)
        try_place(tally, place, admin, tenant, images)
        if place == HOME:
            try_home(tally, admin, tenant, images)
        admin.close()
        tenant.close()
    tally.end()


if __name__ == "__main__":
    main(sys.argv[1:])

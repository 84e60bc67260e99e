#!/usr/bin/env python3
"""A verified class in librados, in Python: a call as a step of an operation, and one that isn't waited for. The class
`counter` of ceph/classes is installed in the OSDs.

    operation.py POOL OBJECT

The cluster is that of $CEPH_CONF. It prints the sum.
"""
import os
import struct
import sys

import rados


def number(value):
    return struct.pack("<Q", value)


def make_and_add(pool, name, value):
    """All or nothing: the object is made, its data are written, and a number is added."""
    with rados.WriteOpCtx() as steps:
        steps.new(rados.LIBRADOS_CREATE_EXCLUSIVE)
        steps.write_full(b"header")
        steps.execute("counter", "add", number(value))
        pool.operate_write_op(steps, name)


def call_later(pool, name, method, data=b""):
    """A call that is waited for after others were begun: its output."""
    answers = []
    done = pool.aio_execute(name, "counter", method, data, 8, oncomplete=lambda _, output: answers.append(output))
    done.wait_for_complete_and_cb()
    if done.get_return_value() < 0:
        raise OSError(-done.get_return_value(), os.strerror(-done.get_return_value()))
    return answers[0]


def main(pool_name, name):
    with rados.Rados(conffile=os.environ["CEPH_CONF"]) as cluster, cluster.open_ioctx(pool_name) as pool:
        make_and_add(pool, name, 40)
        call_later(pool, name, "add", number(2))
        print("the sum is", *struct.unpack("<Q", call_later(pool, name, "get")))


if __name__ == "__main__":
    main(*sys.argv[1:])

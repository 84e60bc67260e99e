#!/usr/bin/env bash
# A class of one's own in a real Ceph cluster: it is installed, clients call it by plain librados, in
# C and in Python, a cap holds, and an OSD is lost in between.
#
#     ceph/demo.sh      builds the plug-in over the built library, starts a cluster in a folder
#                       under /tmp, and removes all of it. Two minutes
#
# The packages of ceph/build.sh and ceph/cluster.sh have to be there, gcc, librados-dev and
# python3-rados: ceph/test.sh names them. Of the environment: that of ceph/build.sh; BUILT is a folder
# with the plug-in's files, in place of those that are built here.
set -eu
here=$(cd "$(dirname "$0")" && pwd)
work=$(mktemp -d /tmp/sillarnica-demo.XXXXXX)
trap '"$here/cluster.sh" stop "$work/cluster"; rm -rf "$work"' EXIT
trap 'exit 1' INT TERM HUP
export CEPH_CONF=$work/cluster/ceph.conf CLASSES=$work/classes LISTED=counter

say() { printf '\n# %s\n' "$1"; }

# Shows a command and runs it; a call that is refused says so.
show() {
    printf '$ %s\n' "$*"
    "$@" || true
}

radosbpf() { "$here/radosbpf" "$@"; }
demo() { "$work/demo" "$@"; }

# Adds a number as the program in C does.
cat > "$work/demo.py" << 'END'
import os, rados, struct, sys
user, pool, name, number = sys.argv[1:]
with rados.Rados(conffile=os.environ["CEPH_CONF"], name=user) as cluster, cluster.open_ioctx(pool) as io:
    try:
        io.execute(name, "counter", "add", struct.pack("<Q", int(number)))
        print("added", number)
    except rados.Error as error:
        print("refused", -error.errno)
END
python() { /usr/bin/python3 "$work/demo.py" "$@"; }

if [ -z "${BUILT-}" ]; then
    say "The plug-in is built over the proved library."
    "$here/build.sh" "$work/build"
    BUILT=$work/build
fi
mkdir "$CLASSES"
ln -s /usr/lib/"$(uname -m)"-linux-gnu/rados-classes/libcls_*.so "$CLASSES"
for file in libcls_bpf.so sillarnica_engine.so sillarnica_calls.so; do
    rm -f "$CLASSES/$file"
    cp "$BUILT/$file" "$CLASSES"
done
rm -f "$CLASSES/libcls_counter.so"
gcc -O2 -Wall -o "$work/demo" "$here/demo.c" -lrados

say "On an OSD's machine the class is verified and installed."
show radosbpf install "$here/classes/counter.img" --dir "$CLASSES"
say "A monitor, a manager and three OSDs are started; counter is on the list of classes."
"$here/cluster.sh" start "$work/cluster"
timeout 60 ceph osd pool create other 1 1 replicated > "$work/log" 2>&1

say "A user who may call one method of it, in one pool."
grep -A 3 client.adder "$work/cluster/keyring" | grep 'caps osd'
say "A program in C calls it, as any class of Ceph's, and one in Python."
show demo client.adder bpf account 40
show python client.adder bpf account 2
say "Another method, and another pool: the OSD refuses with -1, EPERM."
show demo client.adder bpf account
show python client.adder other account 2
say "The object's first OSD is lost."
first=$(timeout 20 ceph osd map bpf account -f json | grep -o '"acting_primary": *[0-9]*' | grep -o '[0-9]*$')
"$here/cluster.sh" kill "$work/cluster" "$first"
echo "osd.$first is gone"
say "The next call goes to the OSD that takes over."
show demo client.adder bpf account 58
show demo client.admin bpf account

#!/usr/bin/env bash
# A small Ceph cluster as ceph/cluster.sh starts it, whose OSDs have the classes of examples/ceph in place of
# Ceph's own, under Ceph's names. So Ceph's clients, and its tests, call them.
#
#     ceph/ports.sh images DIR          makes their images in DIR, a new folder, by tools/radoscls-cc
#     ceph/ports.sh start DIR IMAGES    starts the cluster, and keeps all in DIR, a new folder:
#                                       DIR/classes, which its OSDs open, and DIR/cluster
#
# `ceph/cluster.sh stop DIR/cluster` ends it. Of the environment: BUILT, the folder with the plug-in's files
# (that of the installed package), RADOSCLS, the program (crates/radoscls/out/radoscls), and that of
# ceph/cluster.sh.
set -eu
here=$(cd "$(dirname "$0")" && pwd)
top=$(dirname "$here")
folder=/usr/lib/$(uname -m)-linux-gnu/rados-classes
ports=(cmpomap hello lock numops refcount version)

make_images() {
    mkdir "$1"
    for name in "${ports[@]}"; do
        "$top/tools/radoscls-cc" "$top/examples/ceph/$name.c" -o "$1/$name.img" --loops \
            --radoscls "${RADOSCLS:-$top/crates/radoscls/out/radoscls}" > /dev/null
    done
}

start() {
    mkdir -p "$1/classes"
    ln -s "$folder"/libcls_*.so "$1/classes"
    for name in libcls_bpf sillarnica_engine sillarnica_calls; do
        rm -f "$1/classes/$name.so"
        cp "${BUILT:-$folder}/$name.so" "$1/classes"
    done
    for name in "${ports[@]}"; do
        "$here/radosbpf" install "$2/$name.img" --dir "$1/classes" --replace > /dev/null
    done
    CLASSES=$1/classes LISTED=hello "$here/cluster.sh" start "$1/cluster"
}

case ${1-}$# in
    images2) make_images "$2" ;;
    start3) start "$(realpath -m "$2")" "$3" ;;
    *) sed -n 's/^#  *\(ceph\/ports\)/\1/p' "$0" >&2; exit 2 ;;
esac

#!/usr/bin/env bash
# Makes a folder with Debian's trixie, to test the plug-in in another release of Ceph than that of this
# machine: 18.2.7 there. As root; 1.4 GB, and some minutes.
#
#     ceph/chroot.sh DIR      makes it, or takes it as it is, if it is whole
#
# It wants Debian's package debootstrap. `ceph/test.sh --release 18` runs in it. What it mounts there
# it takes off again when it ends.
set -eu
here=$(cd "$(dirname "$0")" && pwd)
[ $# = 1 ] || { sed -n 's/^#  *\(ceph\/\)/\1/p' "$0" >&2; exit 2; }
dir=$(realpath -m "$1")
packages=$(sed -n '/^packages=(/,/)/p' "$here/test.sh" | tr -d '()' | sed 's/^packages=//' | tr -s ' \n' ' ')

if [ ! -e "$dir/whole" ]; then
    debootstrap --variant=minbase trixie "$dir" "${MIRROR:-http://deb.debian.org/debian}"
    # No service is started there.
    printf '#!/bin/sh\nexit 101\n' > "$dir/usr/sbin/policy-rc.d"
    chmod +x "$dir/usr/sbin/policy-rc.d"
    # shellcheck disable=SC2086
    DEBIAN_FRONTEND=noninteractive chroot "$dir" sh -c \
        "apt-get update && apt-get install -y --no-install-recommends procps $packages"
    touch "$dir/whole"
fi
chroot "$dir" ceph-osd --version

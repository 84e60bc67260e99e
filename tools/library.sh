#!/usr/bin/env bash
# Puts the library into a folder, as a host takes it: libsillarnica.a and its headers.
#
#     tools/library.sh FOLDER [ARCHIVE]
#
# ARCHIVE is what `rt lib` leaves. The kit's three functions over malloc, realloc and free are joined to it, so that a host links
# one file. It needs `ar` and the kit, and prints the version.
set -eu
top=$(cd "$(dirname "$0")/.." && pwd)
archive=$(realpath "${2:-$top/crates/sillarnica/out/libsillarnica.a}")
heap=$(dirname "$(rt doc)")/c/liblibc_c.a
mkdir -p "$1"
rm -f "$1/libsillarnica.a"
(cd "$1" && printf 'create libsillarnica.a\naddlib %s\naddlib %s\nsave\nend\n' "$archive" "$heap" | ar -M)
cp "$top"/include/*.h "$1"
echo "sillarnica $(cat "$top/VERSION")"

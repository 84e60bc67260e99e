#!/usr/bin/env bash
# Builds the plug-in over the proved library.
#
#     ceph/build.sh OUT      makes in OUT the three files of the plug-in, and OUT/classes, a folder for
#                            `osd_class_dir`
#
#     libcls_bpf.so          the stub: an OSD opens it as the class `bpf`, and a copy of it,
#                            `libcls_NAME.so`, as the class NAME
#     sillarnica_engine.so   what all stubs of an OSD share, with the library in it
#     sillarnica_calls.so    the library alone, by which `radosbpf install` verifies a class
#
# OUT/classes has them and Ceph's own classes.
#
# It wants Debian's packages g++, rados-objclass-dev, libradospp-dev and ceph-osd of a release that
# ceph/plugin/osd.h was compared with: the OSD's calls are C++, and another release may have others.
#
# Of the environment: SILLARNICA_ARCHIVE (crates/sillarnica/out/libsillarnica.a, which `rt lib`
# makes), SILLARNICA_INCLUDE, the folder of sillarnica.h (include), SILLARNICA_LIBC, the kit's part
# of the C library, which the archive stands on (the kit's).
set -eu
here=$(cd "$(dirname "$0")" && pwd)
[ $# = 1 ] || { sed -n 's/^#  *\(ceph\/\)/\1/p' "$0" >&2; exit 2; }
mkdir -p "$1"
out=$(cd "$1" && pwd)
releases=$(sed -n 's/^constexpr int RELEASES\[\] = {\(.*\)};$/\1/p' "$here/plugin/osd.h")
archive=${SILLARNICA_ARCHIVE:-$here/../crates/sillarnica/out/libsillarnica.a}
include=${SILLARNICA_INCLUDE:-$here/../include}
libc=${SILLARNICA_LIBC:-$(dirname "$(rt doc)")/c/liblibc_c.a}
libraries=/usr/lib/$(uname -m)-linux-gnu

fail() {
    echo "ceph/build.sh: $1" >&2
    exit 1
}

found=$(ceph-osd --version | awk '{ print $3 }')
[[ ", $releases," == *", ${found%%.*},"* ]] || fail "this is Ceph $found, and the plug-in is for $releases"
for file in "$archive" "$libc" "$include/sillarnica.h"; do
    [ -f "$file" ] || fail "there is no $file"
done

# Each part's object file in $out, all at once.
compile() {
    local part jobs=()
    for part; do
        g++ -std=c++17 -O2 -fPIC -Wall -Wextra -Werror -I"$include" -c "$here/plugin/$part.cc" -o "$out/$part.o" &
        jobs+=($!)
    done
    for part in "${jobs[@]}"; do wait "$part"; done
}

# shared NAME WORDS ..: links $out/NAME.new. Of its names those of plugin/*.map alone are seen from
# outside, so no name of the library meets one of the OSD's. `-z text`: no relocation in the code.
shared() {
    g++ -shared -o "$out/$1.new" "${@:2}" -Wl,--as-needed -Wl,-z,text -Wl,-z,relro -Wl,-z,now
    strip --strip-unneeded "$out/$1.new"
}

# Each name that a file leaves open is one that the installed OSD, or a library that it loads,
# exports.
test_open_names() {
    nm -D --undefined-only "$out/$1.new" |
        awk '$1 == "U" { sub(/@.*/, "", $2); print $2 }' | sort -u > "$out/open"
    {
        echo /usr/bin/ceph-osd
        ldd /usr/bin/ceph-osd | awk '/=> \// { print $3 } /^[[:space:]]*\// { print $1 }'
    } | while read -r file; do
        nm -D --defined-only "$file" | awk '{ sub(/@.*/, "", $NF); print $NF }'
    done | sort -u > "$out/exported"
    missing=$(comm -23 "$out/open" "$out/exported" | grep -v '^sillarnica_open_1$\|^sillarnica_call_1$' || true)
    [ -z "$missing" ] || fail "this Ceph doesn't export $missing"
}

compile engine classes native bpf call part edits object environment sum stub
shared sillarnica_engine.so "$out"/{engine,classes,native,bpf,call,part,edits,object,environment,sum}.o "$archive" "$libc" \
    -Wl,-soname,sillarnica_engine.so -Wl,--version-script="$here/plugin/engine.map"
test_open_names sillarnica_engine.so
# Whole at once: an OSD may open it at any time.
mv "$out/sillarnica_engine.so.new" "$out/sillarnica_engine.so"

# A stub finds the engine in its own folder; where one is open already, that one is taken.
shared libcls_bpf.so "$out/stub.o" "$out/sillarnica_engine.so" \
    -Wl,-rpath,'$ORIGIN' -Wl,--version-script="$here/plugin/stub.map"
test_open_names libcls_bpf.so
mv "$out/libcls_bpf.so.new" "$out/libcls_bpf.so"

shared sillarnica_calls.so -Wl,--whole-archive "$archive" -Wl,--no-whole-archive "$libc"
mv "$out/sillarnica_calls.so.new" "$out/sillarnica_calls.so"

mkdir -p "$out/classes"
ln -sf "$libraries"/rados-classes/libcls_*.so "$out/classes"
for file in libcls_bpf.so sillarnica_engine.so sillarnica_calls.so; do
    cp "$out/$file" "$out/classes/$file.new"
    mv "$out/classes/$file.new" "$out/classes/$file"
done

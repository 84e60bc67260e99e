#!/usr/bin/env bash
# Makes a Debian package of the plug-in, the command radosbpf, its man page and completion, and
# docs/CEPH.md; or one of a class.
#
#     ceph/package.sh OUT                     OUT/sillarnica-ceph_VERSION_ARCHITECTURE.deb
#     ceph/package.sh OUT --class NAME.img [--budget N]
#                                             OUT/sillarnica-class-NAME_VERSION_ARCHITECTURE.deb, which
#                                             installs the class NAME for the machine's OSDs, as
#                                             radosbpf install does with these words
#
# It builds the plug-in by ceph/build.sh, whose environment it hands on; for a class only if the
# package of the plug-in isn't installed. The packages want a Ceph of the oldest release that the
# plug-in is for, and keep no OSD from being upgraded: in an OSD of a release that it isn't for, each
# call is answered -95.
#
# Of the environment: CLASS_VERSION, the version of a class's package (1); DEBFULLNAME and DEBEMAIL,
# the packages' maintainer.
set -eu
here=$(cd "$(dirname "$0")" && pwd)
usage() {
    sed -n 's/^#  *\(ceph\/\)/\1/p' "$0" >&2
    exit 2
}
case $#,${2-},${4-} in 1,*,* | 3,--class,* | 5,--class,--budget) ;; *) usage ;; esac
mkdir -p "$1"
out=$(cd "$1" && pwd) image=${3-} budget=("${@:4}")
architecture=$(dpkg --print-architecture)
oldest=$(sed -n 's/^constexpr int RELEASES\[\] = {\([0-9]*\).*;$/\1/p' "$here/plugin/osd.h")
version=$(sed 's/-dev$/~dev/' "$here/../VERSION")

folder=usr/lib/$(uname -m)-linux-gnu/rados-classes
tree=$out/tree
rm -rf "$tree"
mkdir -p "$tree/DEBIAN" "$tree/$folder"

# put FILE FOLDER MODE [NAME]
put() { install -D -m "$3" "$1" "$tree/$2/${4:-$(basename "$1")}"; }

# pack NAME VERSION DEPENDS DESCRIPTION: the package of all that is in $tree.
pack() {
    cat > "$tree/DEBIAN/control" << END
Package: $1
Version: $2
Architecture: $architecture
Maintainer: ${DEBFULLNAME:-Sillarnica} <${DEBEMAIL:-sillarnica@localhost}>
Depends: $3
Installed-Size: $(du -sk "$tree" | cut -f 1)
Section: admin
Priority: optional
Description: $4
END
    dpkg-deb --root-owner-group --build "$tree" "$out/$1_$2_$architecture.deb" > /dev/null
    rm -rf "$tree"
}

package_plugin() {
    local file
    "$here/build.sh" "$out/build"
    for file in libcls_bpf.so sillarnica_engine.so sillarnica_calls.so; do put "$out/build/$file" "$folder" 644; done
    put "$here/radosbpf" usr/bin 755
    put "$here/package/radosbpf.bash" usr/share/bash-completion/completions 644 radosbpf
    put "$here/package/radosbpf.1" usr/share/man/man1 644
    put "$here/../docs/CEPH.md" usr/share/doc/sillarnica-ceph 644
    put "$here/../LICENSE" usr/share/doc/sillarnica-ceph 644 copyright
    for file in lock counter; do
        put "$here/classes/$file.txt" usr/share/doc/sillarnica-ceph/examples 644
        put "$here/classes/$file.img" usr/share/doc/sillarnica-ceph/examples 644
    done
    gzip -9n "$tree/usr/share/man/man1/radosbpf.1"
    pack sillarnica-ceph "$version" "ceph-osd (>= $oldest), librados2, python3" \
        "verified classes in BPF for the OSDs of a Ceph cluster
 An OSD runs such a class as its own, under the class's name, after it has verified that each of its methods is
 safe and ends within as many instructions as it has. radosbpf installs, calls and watches them."
}

# The class as radosbpf installs it, but for the engine, which is in the other package.
package_class() {
    local name source
    name=$(basename "$image" .img) source=/$folder
    if [ ! -f "$source/sillarnica_engine.so" ]; then
        "$here/build.sh" "$out/build" >&2
        source=$out/build
    fi
    cp "$source"/{libcls_bpf,sillarnica_engine,sillarnica_calls}.so "$tree/$folder"
    "$here/radosbpf" install "$image" --dir "$tree/$folder" "${budget[@]}"
    rm "$tree/$folder"/{libcls_bpf,sillarnica_engine,sillarnica_calls}.so
    pack "sillarnica-class-$(tr 'A-Z_' 'a-z-' <<< "$name")" "${CLASS_VERSION:-1}" "sillarnica-ceph" \
        "the verified class $name for the OSDs of a Ceph cluster
 An OSD runs it under its own name. osd_class_load_list has to name it."
}

if [ -n "$image" ]; then package_class; else package_plugin; fi

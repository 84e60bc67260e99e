#!/usr/bin/env bash
# Makes of a proved build what is installed: the program, the library and what belongs to it, and Debian packages.
#
#     tools/release.sh FOLDER [ARCHIVE [RADOSCLS]]
#
# ARCHIVE and RADOSCLS are what tools/archive.py and `rt ci` leave. FOLDER gets
#
#     bin/radoscls                                its manual page and completion below share/
#     bin/radoscls-cc                             from C to a class; <sillarnica/class.h> and the helpers in plain C
#                                                 lie in share/radoscls
#     lib/libsillarnica.so.N, lib/libsillarnica.a N is the number of the library's calls; lib/pkgconfig/sillarnica.pc
#     include/sillarnica.h
#     python/                                     `pip install --no-index --no-build-isolation FOLDER/python`
#     packages/                                   radoscls, libsillarnicaN, libsillarnica-dev and python3-sillarnica
#     BUILT, SHA256SUMS                           what the gate said, commit and kit; sums of all other files
#
# It needs cc, ar, dpkg-deb and the kit, and proves nothing. Of the environment DEBFULLNAME and DEBEMAIL are the packages'
# maintainer. tools/release_test.sh installs it.
set -euo pipefail
top=$(cd "$(dirname "$0")/.." && pwd)
[ $# -ge 1 ] || { sed -n 's/^#  *\(tools\/release.sh F\)/\1/p' "$0" >&2; exit 2; }
mkdir -p "$1"
out=$(cd "$1" && pwd)
archive=${2:-$top/crates/sillarnica/out/libsillarnica.a}
radoscls=${3:-$top/crates/radoscls/out/radoscls}
version=$(cat "$top/VERSION")
# (by sed: ${version/-dev/~dev} would be the home of a user `dev`)
debian=$(sed 's/-dev$/~dev/' "$top/VERSION")
face=$(sed -n 's/^CALLS = \([0-9]*\)$/\1/p' "$top/python/sillarnica/__init__.py")
architecture=$(dpkg --print-architecture)
triplet=$(uname -m)-linux-gnu
[ -f "$archive" ] && [ -f "$radoscls" ] || { echo "tools/release.sh: $archive or $radoscls isn't built" >&2; exit 1; }
"$top/tools/manual.py" --check "$radoscls" >&2 || { echo "tools/release.sh: first mend what tools/manual.py --check says" >&2; exit 1; }

rm -rf "$out"/{bin,lib,include,share,python,packages,BUILT,SHA256SUMS}
mkdir -p "$out"/{bin,lib/pkgconfig,include,share/man/man1,share/bash-completion/completions,packages}

# the program
install -m 755 "$radoscls" "$out/bin/radoscls"
gzip -9nc "$top/tools/radoscls.1" > "$out/share/man/man1/radoscls.1.gz"
install -m 644 "$top/tools/radoscls.bash" "$out/share/bash-completion/completions/radoscls"

# what makes a class of C. The headers lie apart from all others, where clang looks for them; a plain compiler has them too
mkdir "$out/share/radoscls"
install -m 755 "$top/tools/radoscls-cc" "$out/bin/radoscls-cc"
cp -r "$top"/examples/c/{include,class_native.c} "$out/share/radoscls"
ln -s ../share/radoscls/include/sillarnica "$out/include/sillarnica"

# the library: one archive, and of it a shared object that has these calls alone
"$top/tools/library.sh" "$out/lib" "$archive" > /dev/null
mv "$out"/lib/*.h "$out/include/"
shared=libsillarnica.so.$face
cc -shared -Wl,--whole-archive "$out/lib/libsillarnica.a" -Wl,--no-whole-archive -Wl,-soname,"$shared" \
    -Wl,--version-script,<(echo 'SILLARNICA_'"$face"' { global: sillarnica_*; local: *; };') -Wl,-z,now,-z,relro -Wl,--no-undefined -o "$out/lib/$shared"
ln -s "$shared" "$out/lib/libsillarnica.so"
cat > "$out/lib/pkgconfig/sillarnica.pc" << END
prefix=\${pcfiledir}/../..
includedir=\${prefix}/include
libdir=\${prefix}/lib

Name: sillarnica
Description: verified classes in BPF, called on objects that the host keeps
Version: $version
Libs: -L\${libdir} -lsillarnica
Cflags: -I\${includedir}
END

# Python's package
mkdir "$out/python"
cp -r "$top"/python/{pyproject.toml,wheel_of.py,sillarnica} "$out/python/"
rm -rf "$out/python/sillarnica/__pycache__"

# what it was built of
{
    echo "sillarnica $version, calls $face"
    echo "commit $(git -C "$top" rev-parse HEAD 2> /dev/null || echo unknown)$(git -C "$top" diff --quiet HEAD 2> /dev/null || echo ', changed')"
    echo "kit $(rt version)"
    echo "gate $(tail -n 1 "$top/out/gate" 2> /dev/null || echo 'not run here')"
} > "$out/BUILT"

# package NAME DEPENDS SUMMARY TEXT: makes a Debian package of $tree
package() {
    local name=$1 depends=$2 summary=$3 text=$4
    mkdir -p "$tree/DEBIAN"
    install -D -m 644 "$top/LICENSE" "$tree/usr/share/doc/$name/copyright"
    install -D -m 644 "$out/BUILT" "$tree/usr/share/doc/$name/BUILT"
    grep -v '^Suggests: $' > "$tree/DEBIAN/control" << END
Package: $name
Version: $debian
Architecture: $([ "$name" = python3-sillarnica ] && echo all || echo "$architecture")
Maintainer: ${DEBFULLNAME:-Sillarnica} <${DEBEMAIL:-sillarnica@localhost}>
Installed-Size: $(du -sk "$tree" | cut -f 1)
Depends: $depends
Suggests: ${5-}
Section: $([ "${name#lib}" = "$name" ] && echo utils || echo libs)
Priority: optional
Description: $summary
 $text
END
    dpkg-deb --root-owner-group --build "$tree" "$out/packages/${name}_${debian}_$([ "$name" = python3-sillarnica ] && echo all || echo "$architecture").deb" > /dev/null
    rm -rf "$tree"
}

tree=$(mktemp -d)
chmod 755 "$tree"
libc=$(objdump -T "$out/bin/radoscls" "$out/lib/$shared" 2> /dev/null | sed -n 's/.*GLIBC_\([0-9.]*\).*/\1/p' | sort -V | tail -n 1)
install -D -m 755 "$out/bin/radoscls" "$tree/usr/bin/radoscls"
install -m 755 "$out/bin/radoscls-cc" "$tree/usr/bin/radoscls-cc"
cp -r "$out/share" "$tree/usr/share"
mkdir "$tree/usr/include"
cp -d "$out/include/sillarnica" "$tree/usr/include"
package radoscls "libc6 (>= ${libc:-2.34}), python3" "RADOS object classes in verified BPF: the program" \
    "radoscls makes classes, tells whether their methods are safe, and calls them on an object, in a group of nodes or on a cluster in threads.
 radoscls-cc makes a class of C." "clang (>= 1:14)"
mkdir -p "$tree"
install -D -m 644 "$out/lib/$shared" "$tree/usr/lib/$triplet/$shared"
package "libsillarnica$face" "libc6 (>= ${libc:-2.34})" "verified classes in BPF: the shared library" \
    "A host verifies a class and calls its methods on objects that it keeps. A class can't hang, crash or leave its object."
mkdir -p "$tree/usr/lib/$triplet/pkgconfig"
ln -s "$shared" "$tree/usr/lib/$triplet/libsillarnica.so"
install -m 644 "$out/lib/libsillarnica.a" "$tree/usr/lib/$triplet/"
install -D -m 644 -t "$tree/usr/include" "$out"/include/*.h
sed -e 's,^prefix=.*,prefix=/usr,' -e "s,^libdir=.*,libdir=/usr/lib/$triplet," "$out/lib/pkgconfig/sillarnica.pc" > "$tree/usr/lib/$triplet/pkgconfig/sillarnica.pc"
package libsillarnica-dev "libsillarnica$face (= $debian)" "verified classes in BPF: header, archive and pkg-config" \
    "What a host in C or C++ is built with."
mkdir -p "$tree/usr/lib/python3/dist-packages"
cp -r "$out/python/sillarnica" "$tree/usr/lib/python3/dist-packages/"
package python3-sillarnica "python3 (>= 3.9), libsillarnica$face (>= $debian)" "verified classes in BPF, in Python" \
    "Verifies a class and calls its methods on objects that the caller keeps."
rm -rf "$tree"

(cd "$out" && find . -type f ! -name SHA256SUMS | LC_ALL=C sort | sed 's,^\./,,' | xargs -d '\n' sha256sum > SHA256SUMS)
echo "made $out: sillarnica $version"

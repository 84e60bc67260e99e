#!/usr/bin/env bash
# Installs what tools/release.sh makes, as users do, and runs the first examples of the pages there.
#
#     tools/release_test.sh [ARCHIVE [RADOSCLS]]
#
# Sums are right; each package, pkg-config and Python say the version of the file VERSION; a host in C is built by pkg-config,
# shared and static; the shared object has the library's calls alone; a class in C becomes an image by clang, and a program by
# the host's compiler; the Python package goes into a fresh environment by pip, without a network; as root, the Debian packages go into an empty root by dpkg, and the program, the library and Python run
# from there. It prints a line for each step; the status is 0 if all are well.
set -uo pipefail
top=$(cd "$(dirname "$0")/.." && pwd)
work=$(mktemp -d)
trap 'rm -rf "$work"' EXIT
bad=0
made=$work/made
"$top/tools/release.sh" "$made" "$@" || exit 1

# step NAME COMMAND..: runs it, and prints whether it went well.
step() {
    local name=$1
    shift
    if "$@" > "$work/said" 2>&1; then echo "ok $name"; else echo "FAILED $name"; sed 's/^/  /' "$work/said"; bad=1; fi
}

sums() { (cd "$made" && sha256sum --quiet -c SHA256SUMS); }

# pkg-config and each package say the version of the file VERSION; packages end in ~dev where that ends in -dev
versions() {
    local version debian file
    version=$(cat "$top/VERSION") debian=$(sed 's/-dev$/~dev/' "$top/VERSION")
    PKG_CONFIG_PATH=$made/lib/pkgconfig pkg-config --modversion sillarnica | diff - <(echo "$version") || return 1
    for file in "$made"/packages/*; do
        case ${file##*/} in *_"$debian"_*.deb) ;; *) echo "$file"; return 1 ;; esac
        dpkg-deb -f "$file" Version | diff - <(echo "$debian") || return 1
    done
}

# what examples/embed/host.c prints of two calls, as docs/EMBED.md has it
plays() {
    diff <("$@" "$top/examples/embed/parts.img" a write 0000000068656c6c6f a stat -) - << 'LINES'
code 5 output - steps 9 object 5 0 0
code 5 output - steps 2 object 5 0 0
LINES
}

# builds and plays the host by pkg-config's words; FLAG is -shared or -static
host() {
    local words
    words=$(PKG_CONFIG_PATH=$made/lib/pkgconfig pkg-config --cflags --libs sillarnica) || return 1
    # shellcheck disable=SC2086
    cc "$top/examples/embed/host.c" $words -o "$work/host" && LD_LIBRARY_PATH=$made/lib plays "$work/host" || return 1
    cc -I "$made/include" "$top/examples/embed/host.c" "$made/lib/libsillarnica.a" -o "$work/host" && plays "$work/host"
}

calls_alone() {
    local others
    others=$(nm -D --defined-only "$made"/lib/libsillarnica.so.* | awk '{ print $3 }' | grep -v '^sillarnica_\|^SILLARNICA_')
    [ -z "$others" ] || { echo "it exports $others"; return 1; }
}

# what docs/FROM_C.md prints of the class that it shows; the files of a folder like /usr
in_c() {
    local from=$1
    cp "$top/examples/c/account.c" "$work" && cd "$work" || return 1
    "$from/bin/radoscls-cc" account.c -o account.img | grep -c '^[a-z]* ok [0-9]*$' | diff - <(echo 3) || return 1
    diff <("$from/bin/radoscls" run account.img deposit --input 6400000000000000 | head -n 2) - << 'LINES' || return 1
code 0
output 6400000000000000
LINES
    cc -I "$from/include" account.c "$from/share/radoscls/class_native.c" -o account || return 1
    diff <(./account deposit 6400000000000000) - << 'LINES'
code 0
output 6400000000000000
LINES
}

# runs `python3 tools/release_test.py` by an interpreter, away from the tree
python() { (cd "$work" && "$@" "$top/tools/release_test.py" "$top"); }

in_a_venv() {
    python3 -m venv "$work/venv" && "$work/venv/bin/pip" -q install --no-index --no-build-isolation "$made/python" &&
        SILLARNICA_LIBRARY=$(echo "$made"/lib/libsillarnica.so.*) python "$work/venv/bin/python"
}

in_a_root() {
    local root=$work/root
    mkdir -p "$root/var/lib/dpkg"/{info,updates,triggers} && touch "$root/var/lib/dpkg/status"
    dpkg --root="$root" --force-depends -i "$made"/packages/*.deb || return 1
    diff <("$root/usr/bin/radoscls" run "$top/examples/keep.img" keep --input 726f6f74) - << 'LINES' || return 1
code 4
output 726f6f74
steps 14
object 4 0 0
LINES
    if [ -n "$clang" ]; then (in_c "$root/usr") || return 1; fi
    PYTHONPATH=$root/usr/lib/python3/dist-packages LD_LIBRARY_PATH=$(echo "$root"/usr/lib/*-linux-gnu) python /usr/bin/env python3
}

step "sums" sums
step "versions" versions
step "a host in C, by pkg-config and by the archive" host
step "the shared object has its calls alone" calls_alone
clang=$(type -P "${CLANG:-clang}")
if [ -n "$clang" ]; then (step "a class in C" in_c "$made"; exit $bad) || bad=1; else echo "not run: a class in C, which takes clang"; fi
step "Python, by pip" in_a_venv
if [ "$(id -u)" = 0 ]; then step "Debian packages, in an empty root" in_a_root; else echo "not run: the Debian packages, which dpkg installs as root"; fi
exit $bad

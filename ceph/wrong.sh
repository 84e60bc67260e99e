#!/usr/bin/env bash
# Makes plug-ins with a mistake each, over the stand-in of an OSD, and shows that a test fails for each:
# the edits of ceph/wrong. The last line is `ok` or `failed`.
#
#     ceph/wrong.sh [NAME ..]      all, or those of these names
#
# An edit is a file of lines: `file:` and then pairs of `old:` and `new:`, of which each old text stands
# in that file once; other lines say what the mistake is.
#
# As many are tried at once as there are processors.
#
# Of the environment: SILLARNICA_ARCHIVE, SILLARNICA_INCLUDE and SILLARNICA_LIBC, as of ceph/build.sh;
# RADOSCLS, the program (crates/radoscls/out/radoscls).
set -u
here=$(cd "$(dirname "$0")" && pwd)
top=$(dirname "$here")
export SILLARNICA_ARCHIVE=${SILLARNICA_ARCHIVE:-$top/crates/sillarnica/out/libsillarnica.a}
export SILLARNICA_INCLUDE=${SILLARNICA_INCLUDE:-$top/include}
export SILLARNICA_LIBC=${SILLARNICA_LIBC:-$(dirname "$(rt doc)")/c/liblibc_c.a} PYTHONDONTWRITEBYTECODE=1
radoscls=${RADOSCLS:-$top/crates/radoscls/out/radoscls}
work=$(mktemp -d /tmp/sillarnica-wrong.XXXXXX)
trap 'rm -rf "$work"' EXIT
bad=0
mkdir "$work/images" "$work/loops"
for name in helpers third environment; do "$radoscls" asm "$here/tests/$name.txt" "$work/images/$name.img" || exit 1; done
"$radoscls" asm "$here/tests/loops.txt" "$work/loops/loops.img" || exit 1
cp "$here/classes/lock.img" "$top/examples/count.img" "$work/images"

# build NAME SANITIZERS: what the folder $work/NAME/ceph has, over what was built for `right`.
build() {
    local to=$work/$1/${2%,*}
    if [ "$1" != right ]; then cp -a "$work/right/${2%,*}" "$to" && rm -rf "$to/classes"; fi
    timeout 3600 "$here/tests/stand_in.sh" "$work/$1/ceph/plugin" "$to" "$work/images" "$2" > "$work/$1/log" 2>&1
}

# passes NAME WORDS ..: whether a test passes. One that stands still counts for nothing.
passes() {
    local status images=$work/images
    if [ "$1" = loops ]; then images=$work/loops; fi
    timeout 7200 python3 "$here/tests/$1.py" "$images" "${@:2}" > "$said" 2>&1
    status=$?
    [ $status != 124 ] || { echo "BAD  $1 stands still" >&2; exit 1; }
    return $status
}

# The first test that fails, or nothing.
failing() {
    local to=$work/$1/address said=$work/$1/said test words
    "$to/lists" > "$said" 2>&1 || { echo lists; return; }
    words=(stand-in "$to/stand_in" "$to/classes")
    for test in native loops refusals limits rounds; do passes $test "${words[@]}" || { echo $test; return; }; done
    passes random_calls - 1000 0 5 "${words[@]}" || { echo random_calls; return; }
    to=$work/$1/thread
    [ ! -d "$to" ] || passes threads "$to/stand_in" "$to/classes" || echo threads
}

# A copy keeps the files' times, so that what is built for `right` is older than an edited file alone.
copy() {
    mkdir "$work/$1"
    if [ "$1" = right ]; then cp -a "$here" "$work/right/ceph"; else cp -a "$work/right/ceph" "$work/$1"; fi
}

edit() {
    python3 - "$work/$1/ceph" "$here/wrong/$1.edit" << 'END'
import sys
top, path = sys.argv[1:]
lines = open(path).read().splitlines()
name = next(line[6:] for line in lines if line.startswith("file: "))
with open(f"{top}/{name}") as file:
    text = file.read()
pairs = [line[5:] for line in lines if line.startswith(("old: ", "new: "))]
for old, new in zip(pairs[::2], pairs[1::2]):
    if text.count(old) != 1:
        sys.exit(f"{path}: {old} stands {text.count(old)} times in {name}")
    text = text.replace(old, new)
with open(f"{top}/{name}", "w") as file:
    file.write(text)
END
}

# Tries an edit. The status is 0 if a test fails.
try_edit() {
    local found
    copy "$1"
    edit "$1" || return 1
    if ! build "$1" address,undefined || ! { [ "$1" != one_buffer ] || build "$1" thread; }; then
        echo "BAD  $1 isn't built"
        tail -n 5 "$work/$1/log"
        return 1
    fi
    found=$(failing "$1") || return 1
    if [ -z "$found" ]; then
        echo "BAD  $1: no test fails"
        return 1
    fi
    echo "ok   $1: $found fails"
    rm -rf "${work:?}/$1"
}

copy right
build right address,undefined && build right thread || { cat "$work/right/log"; exit 1; }
found=$(failing right) || exit 1
if [ -n "$found" ]; then
    echo "BAD  without an edit $found fails"
    tail -n 5 "$work/right/said"
    exit 1
fi
echo "ok   without an edit all pass"
if [ $# = 0 ]; then
    for file in "$here"/wrong/*.edit; do set -- "$@" "$(basename "$file" .edit)"; done
fi
jobs=()
for name; do
    [ "$(jobs -pr | wc -l)" -lt "$(nproc)" ] || wait -n
    try_edit "$name" &
    jobs+=($!)
done
for job in "${jobs[@]}"; do wait "$job" || bad=1; done
if [ $bad = 0 ]; then echo ok; else echo failed; fi
exit $bad

#!/usr/bin/env bash
# Builds the plug-in over the stand-in of an OSD, with the compiler's tests of memory and of
# arithmetic, or of threads.
#
#     ceph/tests/stand_in.sh PLUGIN OUT IMAGES address,undefined|thread|fuzzer
#
# PLUGIN is the folder of the plug-in's sources. What is in OUT and newer is taken. OUT gets the
# programs `stand_in` and `lists`, or of `fuzzer`, which takes clang, the program `fuzz`, with the tests of
# memory and of arithmetic; and a folder `classes` to open: the class `bpf`, with its methods for classes
# that are sent, and of each image in the folder IMAGES a class; besides `cut`, whose image is cut,
# `none`, which has no image, and `a_link`, a link to another class's file that is opened before it.
#
# Of the environment: SILLARNICA_ARCHIVE, SILLARNICA_INCLUDE and SILLARNICA_LIBC, as of ceph/build.sh.
set -eu
here=$(cd "$(dirname "$0")" && pwd)
[ $# = 4 ] || { sed -n 's/^#  *\(ceph\/\)/\1/p' "$0" >&2; exit 2; }
plugin=$1 out=$2 images=$3 sanitizers=$4
classes=$out/classes libraries=/usr/lib/$(uname -m)-linux-gnu
compiler=g++ programs=(stand_in lists) of_objects=() of_program=()
if [ "$sanitizers" = fuzzer ]; then
    # An OSD calls a method as a function of other pointers than it takes, which clang would tell of.
    compiler=clang++ programs=(fuzz) sanitizers=address,undefined
    of_objects=(-O1 -fsanitize=fuzzer-no-link -fno-sanitize=function) of_program=(-fsanitize=fuzzer)
fi
mkdir -p "$classes"
flags=(-std=c++17 -g1 -O0 -fPIC -Wall -Wextra -Werror "-fsanitize=$sanitizers" -fno-sanitize-recover=undefined
    "-I$SILLARNICA_INCLUDE" "${of_objects[@]}")

jobs=()
for file in "$plugin"/{engine,classes,native,bpf,call,part,edits,object,environment,sum,stub} \
    "${programs[@]/#/$plugin/../tests/}"; do
    object=$out/$(basename "$file").o
    is_old=
    for source in "$file.cc" "$plugin"/*.h "$plugin/../tests/stand_in.cc"; do
        if [ ! "$object" -nt "$source" ]; then is_old=yes; fi
    done
    [ -n "$is_old" ] || continue
    $compiler "${flags[@]}" -c "$file.cc" -o "$object" &
    jobs+=($!)
done
for job in "${jobs[@]}"; do wait "$job"; done

$compiler -shared "-fsanitize=$sanitizers" -o "$classes/sillarnica_engine.so" \
    "$out"/{engine,classes,native,bpf,call,part,edits,object,environment,sum}.o "$SILLARNICA_ARCHIVE" "$SILLARNICA_LIBC" \
    -Wl,--wrap=malloc,--wrap=realloc,--wrap=clock_gettime -Wl,-soname,sillarnica_engine.so \
    -Wl,--version-script="$plugin/engine.map"
$compiler -shared "-fsanitize=$sanitizers" -o "$classes/libcls_bpf.so" "$out/stub.o" "$classes/sillarnica_engine.so" \
    -Wl,-rpath,'$ORIGIN' -Wl,--version-script="$plugin/stub.map"
for program in "${programs[@]}"; do
    parts=("$out/$program.o")
    if [ "$program" = lists ]; then parts+=("$out"/{edits,object,environment}.o); fi
    $compiler "-fsanitize=$sanitizers" "${of_program[@]}" -o "$out/$program" "${parts[@]}" -rdynamic -ldl -lpthread \
        -L"$libraries/ceph" -l:libceph-common.so.2 -Wl,-rpath,"$libraries/ceph"
done

touch "$classes/bpf.sent"
for image in "$images"/*.img; do
    name=$(basename "$image" .img)
    if [ "$name" = lock ]; then name=lock.2; fi # the name of a class of Ceph's own
    cp "$image" "$classes/$name.img"
    cp "$classes/libcls_bpf.so" "$classes/libcls_$name.so"
done
for name in cut none; do cp "$classes/libcls_bpf.so" "$classes/libcls_$name.so"; done
head -c 40 "$images/helpers.img" > "$classes/cut.img"
ln -sf libcls_count.so "$classes/libcls_a_link.so"

#!/usr/bin/env bash
# Lets libFuzzer make calls of the library and of the plug-in, and compares what they answer with what the pages say.
#
#     tools/fuzz.sh [SECONDS [ARCHIVE [RADOSCLS]]]
#
# SECONDS is 60 if it isn't given: for so long both run side by side, after some 20 seconds in which they are built. ARCHIVE and
# RADOSCLS are what tools/embed.sh takes.
#
# - tools/fuzz.c makes calls in C of whatever images, objects, parts and inputs, beside a model of its own (tools/fuzz_machine.c), and
#   learns of each input what code of the library it ran (tools/fuzz_blocks.c);
# - ceph/tests/fuzz.cc makes calls of the plug-in, over the stand-in of an OSD. It is left out without Debian's packages of Ceph.
#
# It takes Debian's clang: without it, or without its libFuzzer, it says so and passes. What they begin with is made of files of
# the repository. It prints a line for each, and the status is 0 if nothing differs. Else it shows how it ended, and the input is
# kept in out/fuzz. Of the environment: SEED, 1 if it isn't given, and CORPUS, a folder in whose folders `library` and `plugin`
# inputs are kept: they are made again first, and so is one that was kept in out/fuzz and is put there.
set -uo pipefail
top=$(cd "$(dirname "$0")/.." && pwd)
seconds=${1:-60}
archive=$(realpath -m "${2:-$top/crates/sillarnica/out/libsillarnica.a}")
radoscls=$(realpath -m "${3:-$top/crates/radoscls/out/radoscls}")
work=$(mktemp -d)
jobs=() bad=0
trap 'kill "${jobs[@]-}" 2> /dev/null; rm -rf "$work"' EXIT
trap 'exit 1' INT TERM
corpus=${CORPUS:-$work/corpus} kept=$top/out/fuzz
flags=(-std=gnu11 -g -O1 -Wall -Wextra -fsanitize=address,undefined -fno-sanitize-recover=all)

# Whether the compiler has libFuzzer.
has_fuzzer() {
    echo 'int LLVMFuzzerTestOneInput(const char *at, unsigned long n) { return !at && n; }' > "$work/none.c"
    clang -fsanitize=fuzzer,address,undefined "$work/none.c" -o "$work/none" 2> /dev/null && clang++ --version > /dev/null
}

build_library() {
    "$top/tools/library.sh" "$work/library" "$archive" &&
        clang "${flags[@]}" -fsanitize=fuzzer -no-pie -I "$work/library" -Wl,--wrap=malloc,--wrap=realloc,--wrap=free,-Map="$work/map" \
            "$top"/tools/fuzz{,_blocks,_change,_machine,_model,_parts}.c "$work/library/libsillarnica.a" -o "$work/library/fuzz" &&
        python3 "$top/tools/fuzz_blocks.py" "$work/library/fuzz" "$work/map" libsillarnica.a > "$work/blocks"
}

build_plugin() {
    mkdir "$work/plugin" "$work/images"
    "$radoscls" asm "$top/ceph/tests/helpers.txt" "$work/images/helpers.img" || return
    cp "$top/ceph/classes/lock.img" "$top/examples/count.img" "$work/images"
    SILLARNICA_ARCHIVE=$archive SILLARNICA_INCLUDE=$top/include SILLARNICA_LIBC=${SILLARNICA_LIBC:-$(dirname "$(rt doc)")/c/liblibc_c.a} \
        "$top/ceph/tests/stand_in.sh" "$top/ceph/plugin" "$work/plugin" "$work/images" fuzzer
}

# run NAME LONGEST: lets a fuzzer run, with inputs of so many bytes at most, and tells how it went.
run() {
    local status=0 inputs blocks
    trap 'kill "$id" 2> /dev/null; exit 1' TERM
    mkdir -p "$corpus/$1" "$kept"
    BLOCKS=$work/blocks "$work/$1/fuzz" -seed="${SEED:-1}" -max_total_time="$seconds" -max_len="$2" -len_control=0 -timeout=60 -rss_limit_mb=4096 \
        -print_final_stats=1 -artifact_prefix="$kept/$1-" "$corpus/$1" "$work/seeds/$1" > "$work/$1/said" 2>&1 &
    id=$!
    wait $id || status=$?
    inputs=$(sed -n 's/^stat::number_of_executed_units: *//p' "$work/$1/said")
    if [ "$status" = 0 ] && [ -n "$inputs" ]; then
        blocks=$(sed -n 's/^blocks: \(.*\)/; \1 pieces of the library'"'s code were run/p" "$work/$1/said")
        echo "ok $1: $inputs inputs, of which $(find "$corpus/$1" -type f | wc -l) did something new$blocks"
    else
        grep -v '^#[0-9]' "$work/$1/said" | tail -n 40
        echo "DIFFERS $1 (status $status)"
        return 1
    fi
}

has_fuzzer || { echo "not run: tools/fuzz.sh: there is no clang with -fsanitize=fuzzer (Debian's package clang)"; exit 0; }
mkdir -p "$work"/seeds/{library,plugin}
names=(library)
if [ -f /usr/include/rados/objclass.h ] && [ -f "/usr/lib/$(uname -m)-linux-gnu/ceph/libceph-common.so.2" ]; then
    names+=(plugin)
else
    echo "not run: ceph/tests/fuzz.cc: there are no packages rados-objclass-dev, libradospp-dev and librados2"
fi
for name in "${names[@]}"; do
    "build_$name" > "$work/$name.log" 2>&1 &
    jobs+=($!)
done
for name in "${names[@]}"; do
    id=${jobs[0]} status=0
    wait "$id" || status=$?
    jobs=("${jobs[@]:1}")
    [ "$status" = 0 ] || { cat "$work/$name.log"; echo "DIFFERS $name isn't built"; exit 1; }
done
mkdir "$work/looped" && python3 "$top/tools/embed_loops.py" images "$radoscls" "$work/looped" &&
    python3 "$top/tools/embed.py" seeds 60 1 "$work/seeds/library" "$top"/examples/embed/parts.img "$top"/examples/*.img "$top"/ceph/classes/*.img \
        "$work"/looped/*.img &&
    { [ "${#names[@]}" = 1 ] || python3 "$top/ceph/tests/fuzz_seeds.py" "$work/images" "$work/seeds/plugin"; } || exit 1
for name in "${names[@]}"; do
    run "$name" "$([ "$name" = library ] && echo 20000 || echo 4096)" &
    jobs+=($!)
done
for id in "${jobs[@]}"; do
    wait "$id" || bad=1
    jobs=("${jobs[@]:1}")
done
exit $bad

#!/usr/bin/env bash
# Builds hosts over the static library, and compares what they get with `radoscls run`.
#
#     tools/embed.sh [CALLS [ARCHIVE [RADOSCLS]]]
#
# CALLS is 10,000 if it isn't given; ARCHIVE and RADOSCLS are what `rt lib` and `rt run` leave, and tools/library.sh takes ARCHIVE. It prints a line for each step,
# and the status is 0 if nothing differs:
#
# - cc and c++ build examples/embed/host.c, and it prints what the page says, and of the built-in class `lock` what two callers
#   get; so does examples/embed/host.py by a shared object;
# - examples/embed/large.c, where SQLite is installed, prints what calls on parts of an object give, and how many each took;
# - random methods on objects of any size, also with loops, need by rounds and answer what a model in Python says
#   (tools/embed_parts.py);
# - random calls, some of hostile images and flat forms, give the program's code, output, steps and refusals, and their edits
#   make of the object before the program's object after;
# - random calls of classes with loops, by a host's greatest budget, give what the program and a model in Python say
#   (tools/embed_loops.py);
# - each is made by a handle too, with too little room, on the parts that its method needs alone, and with memory refused at each
#   growth; eight threads make all of them at once, each with a handle of its own;
# - the largest image, object and budget, answers of over 2 MB, and handles that a host wrote over (tools/embed_large.c), which
#   a library with a mistake, each of seven, doesn't pass (tools/embed_wrong.c);
# - the same under the address and undefined-behavior sanitizers, refused memory too.
set -uo pipefail
top=$(cd "$(dirname "$0")/.." && pwd)
calls=${1:-10000}
radoscls=$(realpath "${3:-$top/crates/radoscls/out/radoscls}")
work=$(mktemp -d)
trap 'rm -rf "$work"' EXIT
bad=0
"$top/tools/library.sh" "$work/library" "${2:-$top/crates/sillarnica/out/libsillarnica.a}" || exit 1
archive=$work/library/libsillarnica.a
here=$top/examples/embed

# Prints a line of a step: NAME and whether it went well.
step() {
    if [ "$2" = 0 ]; then echo "ok $1"; else echo "DIFFERS $1"; bad=1; fi
}

# The host's lines, against what they should be.
plays() {
    local name=$1
    shift
    "$@" "$here/parts.img" a write 0000000068656c6c6f a putx 016176 a write 05000000 a stat - b stat - a rmx 61 a none - a remove - > "$work/lines" &&
        diff "$work/lines" - <<'LINES'
code 5 output - steps 9 object 5 0 0
code 0 output - steps 14 object 5 1 0
code 0 output - steps 9 object 5 1 0
code 5 output - steps 2 object 5 1 0
code -2 output - steps 2 object absent
code 0 output - steps 2 object 5 0 0
refused -95
code 0 output - steps 2 object absent
LINES
    step "$name" $?
    "$@" "$work/lock.img" a lock@1 - a lock@2 - a lock@1 - a unlock@2 - a unlock@1 - a unlock@1 - a lock@2 - a lock@1 - b unlock@2 - > "$work/lines" &&
        diff "$work/lines" - <<'LINES'
code 0 output - steps 20 object 0 1 0
code -16 output - steps 16 object 0 1 0
code 0 output - steps 15 object 0 1 0
code -16 output - steps 15 object 0 1 0
code 0 output - steps 19 object 0 0 0
code -61 output - steps 12 object 0 0 0
code 0 output - steps 20 object 0 1 0
code -16 output - steps 16 object 0 1 0
code -2 output - steps 12 object absent
LINES
    step "$name: a lock of two callers" $?
    "$@" <(printf RCL1) > "$work/lines"
    [ $? = 1 ] && [ "$(cat "$work/lines")" = "image refused after 0 methods: 1 Truncated" ]
    step "$name refuses" $?
}

# the built-in class `lock` as an image
sed -n '/^pub const LOCK/,/^";/{s/^pub const LOCK: &str = "//;/^";/d;p}' "$top/crates/builtin_classes/src/lock.rt" > "$work/lock.txt"
"$radoscls" asm "$work/lock.txt" "$work/lock.img" || exit 1

flags=(-I "$work/library" -Wall -Wextra)
wrap=(-DREFUSE -Wl,--wrap=malloc -Wl,--wrap=realloc -pthread)
clean=(-fsanitize=address,undefined -fno-sanitize-recover=all -g)
cc -std=c99 "${flags[@]}" "$here/host.c" "$archive" -o "$work/host" && plays "host by cc" "$work/host" || step "host by cc" 1
c++ -x c++ "${flags[@]}" "$here/host.c" -x none "$archive" -o "$work/host" && plays "host by c++" "$work/host" || step "host by c++" 1
cc "${flags[@]}" "${clean[@]}" "$here/host.c" "$archive" -o "$work/host" && plays "host under sanitizers" "$work/host" || step "host under sanitizers" 1

# The host of objects of any size: its lines, with the number of calls that each took.
plays_large() {
    rm -f "$work/objects"
    "$work/large" "$work/objects" "$here/parts.img" b create 00 b write ff0f000068656c6c6f b read fd0f000008000000 b put 016b76 b next - b put 016c77 \
        b next 6b b rm 6b b rm 6b b next - b remake - b stat - b none - > "$work/lines" && diff "$work/lines" - <<'LINES'
code 0 output - calls 1
code 5 output - calls 1
code 7 output 000068656c6c6f calls 2
code 0 output - calls 1
code 1 output 6b calls 2
code 0 output - calls 1
code 1 output 6c calls 2
code 0 output - calls 2
code -61 output - calls 2
code 1 output 6c calls 2
code 0 output - calls 1
code 0 output - calls 1
refused -95 calls 1
LINES
    step "$1" $?
}
if cc -E - <<< '#include <sqlite3.h>' > /dev/null 2>&1; then
    cc -std=c99 "${flags[@]}" "$here/large.c" "$archive" -lsqlite3 -o "$work/large" && plays_large "large by cc" || step "large by cc" 1
    cc "${flags[@]}" "${clean[@]}" "$here/large.c" "$archive" -lsqlite3 -o "$work/large" && plays_large "large under sanitizers" || step "large under sanitizers" 1
else
    echo "not run: examples/embed/large.c: there is no sqlite3.h"
fi
cc -shared -Wl,--whole-archive "$archive" -Wl,--no-whole-archive -o "$work/libsillarnica.so" && plays "host in Python" python3 "$here/host.py" "$work/libsillarnica.so" || step "host in Python" 1

python3 "$top/tools/embed_parts.py" "$work/libsillarnica.so" "$radoscls" --seconds 20
step "calls on parts of objects of any size" $?
python3 "$top/tools/embed_parts.py" "$work/libsillarnica.so" "$radoscls" --seconds 20 --loops
step "calls with loops on parts of objects of any size" $?

python3 "$top/tools/embed.py" make "$calls" 1 "$work/calls" "$here/parts.img" "$top"/examples/{keep,count,hello,two}.img
budget=131072
python3 "$top/tools/embed_loops.py" images "$radoscls" "$work" &&
    python3 "$top/tools/embed_loops.py" make $((calls / 5)) 1 "$work/looped" "$work"/loops{300,4096,131072,,_more}.img || exit 1
cc -std=gnu11 -O2 "${flags[@]}" "${wrap[@]}" "$top/tools/embed.c" "$archive" -o "$work/embed" && "$work/embed" "$work/calls" 8 > "$work/printed"
step "calls, and eight threads" $?
"$work/embed" "$work/looped" 8 $budget > "$work/printed_looped"
step "calls with loops, and eight threads" $?
c++ -x c++ -O2 "${flags[@]}" -pthread "$top/tools/embed.c" -x none "$archive" -o "$work/embed" && "$work/embed" "$work/calls" 1 | cmp - "$work/printed"
step "calls by c++" $?
cc -std=gnu11 "${flags[@]}" "${wrap[@]}" "${clean[@]}" "$top/tools/embed.c" "$archive" -o "$work/embed" && "$work/embed" "$work/calls" 8 | cmp - "$work/printed"
step "calls under sanitizers" $?
"$work/embed" "$work/looped" 8 $budget | cmp - "$work/printed_looped"
step "calls with loops under sanitizers" $?
large=(-Wl,--wrap=malloc -Wl,--wrap=realloc -Wl,--wrap=free "$top/tools/embed_large.c")
cc -std=gnu11 -O2 "${flags[@]}" "${large[@]}" "$archive" -o "$work/large" && "$work/large"
step "large things, and handles" $?
cc -std=gnu11 "${flags[@]}" "${clean[@]}" "${large[@]}" "$archive" -o "$work/large" && "$work/large"
step "large things, and handles, under sanitizers" $?
for call in verify call verified_open verified_call verified_close loops_open; do large+=("-Wl,--wrap=sillarnica_$call"); done
for wrong in FORMS EDITS IMAGES OPENS CLOSED BUDGETS SPENT; do
    cc -std=gnu11 -O2 "${flags[@]}" -DWRONG=$wrong "${large[@]}" "$top/tools/embed_wrong.c" "$archive" -o "$work/large" &&
        { "$work/large" 2> "$work/lines"; [ $? = 1 ] && grep -q '^large: ' "$work/lines"; }
    step "large things fail of the mistake $wrong" $?
done
python3 "$top/tools/embed.py" python "$work/calls" "$work/printed" "$work/libsillarnica.so"
step "calls in Python" $?
python3 "$top/tools/embed.py" judge "$work/calls" "$work/printed" "$radoscls"
step "calls beside the program" $?
python3 "$top/tools/embed.py" python "$work/looped" "$work/printed_looped" "$work/libsillarnica.so" $budget
step "calls with loops in Python" $?
python3 "$top/tools/embed.py" judge "$work/looped" "$work/printed_looped" "$radoscls" $budget
step "calls with loops beside the program" $?
python3 "$top/tools/embed_loops.py" judge "$work/looped" "$work/printed_looped" $budget
step "calls with loops beside a model" $?
exit $bad

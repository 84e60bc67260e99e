#!/usr/bin/env bash
# Compiles `radoscls` once, without any proof, and runs commands by it.
#
#     tools/try.sh WORD WORD ..
#     tools/try.sh [FILE]
#
# Two words or more are those of one `radoscls`. Else the commands are a shell's, of FILE or of
# standard input. If that has none, being a terminal, /dev/null or closed, it makes a call, and on a
# terminal it then asks for commands. They run in the caller's folder, and `radoscls` in them is the
# program. The status is the last one's, or 2 if `rt` is missing or the program doesn't compile.
#
# Compiling takes some two minutes on four cores, and 1.5 GB. The program is kept, in
# crates/radoscls/out/tried, until a source or the kit is another. It is built with checks of
# memory, so it is slower than `rt run`'s.
set -eu
top=$(cd "$(dirname "$0")/.." && pwd)
kept=$top/crates/radoscls/out/tried

# Says in one line that `rt` is missing, and where it may be.
need_rt() {
    local found
    if type -P rt > /dev/null; then return; fi
    for found in "${HOME-}"/bin/rt "${HOME-}"/*/bin/rt "$top"/../*/bin/rt /opt/*/bin/rt /usr/local/*/bin/rt; do
        if [ -x "$found" ]; then
            echo "rt isn't on the path; it may be the one here: export PATH=$(cd "${found%/*}" && pwd):\$PATH" >&2
            exit 2
        fi
    done
    echo "rt isn't on the path: it is in the folder bin of Rattle's kit, which its makers hand out" >&2
    exit 2
}

# Names the kit and sums the sources: all that the program is made of.
made_of() {
    rt version
    cd "$top" && find crates.txt crates/*/src -type f -print0 | sort -z | xargs -0 sha256sum
}

# `rt try` keeps no file, but a program that reads a pipe waits for it, and can be copied meanwhile.
compile() {
    local work program
    work=$(mktemp -d)
    trap "rm -rf '$work'" EXIT
    chmod 755 "$work"
    mkfifo -m 644 "$work/pipe"
    echo "compiling radoscls without a proof, once: some two minutes on four cores" >&2
    # the last part lets the pipe be opened below if the program was never run
    { cd "$top/crates/radoscls"; TMPDIR=$work rt try -- verify "$work/pipe" > "$work/told" 2>&1 || true; : <> "$work/pipe"; } &
    exec 3> "$work/pipe"
    program=$(find "$work" -type f -name program -perm -u+x -print -quit)
    if [ -n "$program" ]; then
        mkdir -p "$kept"
        cp "$program" "$kept/radoscls"
        printf '%s\n' "$1" > "$kept/sum"
    fi
    exec 3>&-
    wait
    if [ -z "$program" ]; then
        cat "$work/told" >&2
        echo "no program came of \`rt try\`: what is wrong stands above, or it was stopped, or lacked memory" >&2
        exit 2
    fi
    rm -rf "$work"
    trap - EXIT
    echo "compiled in $SECONDS seconds" >&2
}

need_rt
sum=$(made_of | sha256sum)
if [ "$(cat "$kept/sum" 2> /dev/null)" != "$sum" ]; then compile "$sum"; fi
export PATH="$kept:$PATH"
if [ $# -gt 1 ]; then exec radoscls "$@"; fi
if [ $# = 0 ] && { [ -c /dev/stdin ] || ! [ -e /dev/stdin ]; }; then
    echo "\$ radoscls run examples/keep.img keep --input 726f6f74" >&2
    radoscls run "$top/examples/keep.img" keep --input 726f6f74
    if ! [ -t 0 ]; then exit; fi
    echo "radoscls is compiled, and not proved; exit leaves" >&2
    PS1='try> ' exec bash --norc
fi
exec bash "$@"

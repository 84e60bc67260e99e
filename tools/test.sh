#!/usr/bin/env bash
# Passes all tests.
#
#     tools/test.sh [--quick]
#
# Without a word it is the gate: `rt ci` proves every crate and its tests from nothing, tries the wrong edits of must-fail/ and
# makes every test and stored run; then come the other wrong edits, the program as a process, its manual page, the commands
# that the pages show, histories of random clusters, classes in C, hosts over the library, a minute of libFuzzer, what is
# installed, and the plug-in in a real Ceph (as root, with Debian's packages). At the end it tells the minutes that each part took.
# Before all that, lines over 120 columns and files that don't say what they are for are looked for.
# One that fails ends it.
#
# --quick proves nothing: it passes, by a program that is compiled without a proof, what needs none. Hosts over the library are
# left out where no gate has built the library yet.
#
# The status is 0 if all passed.
set -euo pipefail
cd "$(dirname "$0")/.."
# (it says in one line where `rt` may be)
type -P rt > /dev/null || exec tools/try.sh
work=$(mktemp -d) scratch=
trap 'tell_failed; rm -rf "$work" "$scratch"' EXIT
trap 'exit 1' INT TERM

# part NAME COMMAND: runs the command, and keeps how long it took.
part() {
    local name=$1 status=0 TIMEFORMAT="$1 %R %U %S"
    shift
    { time "$@" 2>&3; } 3>&2 2>> "$work/took" | tee "$work/said.$name" || status=$?
    [ "$status" = 0 ] || echo "$name" >> "$work/failed"
    return "$status"
}

# The last lines are what went wrong, since who reads what a gate printed may get these alone.
tell_failed() {
    local name
    [ -f "$work/failed" ] || return 0
    while read -r name; do
        printf '\nFAILED: %s, of which\n' "$name"
        grep -E -A 2 '^ *(BAD|bad|differs)|NOT (PROVED|REFUSED|TRIED)|FAILED' "$work/said.$name" | tail -n 24 || true
        tail -n 4 "$work/said.$name"
    done < "$work/failed"
}

tell_minutes() {
    awk 'BEGIN { printf "\n%-10s %8s %10s\n", "minutes", "of wall", "processor" }
        { printf "%-10s %8.1f %10.1f\n", $1, $2 / 60, ($3 + $4) / 60; all += $3 + $4 }
        END { printf "%-10s %8.1f %10.1f\n", "all", '"$SECONDS"' / 60, all / 60 }' "$work/took"
}

quick() {
    local program=crates/radoscls/out/tried/radoscls archive=crates/sillarnica/out/libsillarnica.a
    part widths tools/count.py --check
    part compile tools/try.sh <<< true
    part process tools/process.py --tried "$program"
    part manual tools/manual.py --check "$program"
    part pages tools/pages.sh "$program"
    part judge tools/judge.py --tried "$program"
    part c tools/cc_tests.py "$program"
    if [ -f "$archive" ]; then
        part embed tools/embed.sh 10000 "$archive" "$program"
    else
        echo "not run: tools/embed.sh: there is no $archive, which the gate or \`rt lib\` builds"
    fi
    tell_minutes
    echo "passed, by a program that isn't proved: nothing was proved"
}

# Environment alone (docs/CONTRIBUTING.md says why): how many provers run side by side, and scratch files in memory if there is room.
prepare() {
    local available room
    RT_JOBS=$(python3 tools/kit.py)
    export RT_JOBS
    available=$(awk '/^MemAvailable:/ { print int($2 / 1000000) }' /proc/meminfo)
    room=$(df -k --output=avail /dev/shm 2> /dev/null | tail -n 1 || true)
    folder=${TMPDIR:-/tmp}
    if [ "$available" -ge 16 ] && [ "$((room + 0))" -ge 8000000 ] && scratch=$(mktemp -d /dev/shm/rt-XXXXXX); then
        # Tests run there as nobody, so programs must be allowed to run there.
        chmod 711 "$scratch"
        if cp "$(type -P true)" "$scratch/true" && "$scratch/true"; then folder=$scratch; fi
    fi
}

of_the_program() {
    local program=crates/radoscls/out/radoscls
    part process tools/process.py && part manual tools/manual.py --check && part pages tools/pages.sh &&
        part judge tools/judge.py --seed 1 --seconds 40 --runs 30 && part c tools/cc_tests.py "$program" &&
        part classes examples/ceph/check.py "$program" 100
}

of_the_library() {
    part archive tools/archive.py && part embed tools/embed.sh && part fuzz tools/fuzz.sh && part release tools/release_test.sh
}

if [ "${1-}" = --quick ]; then
    quick
    exit
elif [ $# -gt 0 ]; then
    echo "usage: tools/test.sh [--quick]" >&2
    exit 2
fi
part widths tools/count.py --check
prepare
TMPDIR=$folder part rt-ci rt ci | tee "$work/ci"
# (tools/release.sh puts it into what it makes)
mkdir -p out
tail -n 1 "$work/ci" > out/gate
TMPDIR=$folder part edits tools/edits.py | tee "$work/edits"
of_the_program > "$work/beside" 2>&1 &
status=0
of_the_library || status=$?
wait $! || status=$?
cat "$work/beside"
# Alone, since a cluster's daemons wait for one another.
part ceph ceph/test.sh || status=$?
tell_minutes
[ "$status" = 0 ] && echo "passed; $(tail -n 1 "$work/edits")"

#!/usr/bin/env bash
# Runs the commands and examples that the pages show, compares what they print with the pages, and
# checks the pages' links.
#
#     tools/pages.sh [RADOSCLS]
#
# RADOSCLS is the program; else what `rt ci` or `rt run` left, and if that isn't there, what
# tools/try.sh compiles without a proof, which one command of README.md has it do anyway. With
# RADOSCLS a command whose program isn't here may be left out. tools/pages.py has the rows.
set -eu
top=$(cd "$(dirname "$0")/.." && pwd)
program=$(realpath -m "${1:-$top/crates/radoscls/out/radoscls}")
if ! [ -x "$program" ]; then
    "$top/tools/try.sh" <<< true
    program=$top/crates/radoscls/out/tried/radoscls
fi
exec python3 "$top/tools/pages.py" "$program" $#

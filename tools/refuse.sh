#!/usr/bin/env bash
# Refuses each growth of memory in turn, one a run: of every row of `tests_memory_rows`, and of
# every command of `radoscls` with its options.
#
#     tools/refuse.sh [ROWS [RADOSCLS [NAME ..]]]
#
# ROWS and RADOSCLS are the two programs, as `rt run` leaves them; `-` leaves one out. With NAMEs
# only those rows and commands are run. For each it prints how many growths were refused, how many
# runs told of it, and each difference:
#
# - a row answers, or is refused by its call's own number, leaves its state as it was, and answers
#   when it is called again;
# - a command does what it does with all its memory: the same lines on both streams, the same status
#   and the same file OUT (figures of `--stats` may differ). Or it prints the first of these lines,
#   and then one that names want of memory, ends with 1, says nothing on standard error and leaves
#   OUT as it was; a call of `cluster` that is refused so ends with 0. Of the last growths, eight at
#   most, by which OUT is written, that line is `cannot write`, and the new file that was to take its
#   place is gone too. Or, of a refusal that is explained, the last of these lines are missing. Of
#   several files want of memory is told for one, and the others' lines stay.
#
# A row or a command that met no refusal doesn't pass. Each of the first 700 growths is refused,
# then every seventh: so all takes less than three minutes of one processor. A run has five minutes,
# for a machine that does other things. The status is 0 where all passed.
set -u
top=$(cd "$(dirname "$0")/.." && pwd)
rows=${1:-$top/crates/tests_memory_rows/out/tests_memory_rows}
radoscls=${2:-$top/crates/radoscls/out/radoscls}
shift $(($# < 2 ? $# : 2))
wanted=" $* "
work=$(mktemp -d)
trap 'rm -rf "$work"' EXIT
cc -shared -fPIC -O2 -o "$work/refuse.so" "$top/tools/refuse.c" || exit 2
bad=0

# Whether the row or command of that name is to be run.
is_wanted() { [ "$wanted" = "  " ] || [[ $wanted == *" $1 "* ]]; }

# Runs words with their Nth growth refused, for at most five minutes: `out`, `err` and `status`.
# Whether there was such a growth.
run() {
    rm -f "$work/met"
    (
        cd "$work" || exit 125
        exec timeout 300 env REFUSE_AT="$1" REFUSE_MET="$work/met" \
            LD_PRELOAD="$work/refuse.so" "${@:2}"
    ) < "$work/two.img" > "$work/1" 2> "$work/2"
    status=$?
    IFS= read -r -d '' out < "$work/1"
    IFS= read -r -d '' err < "$work/2"
    [ -e "$work/met" ]
}

# The growth after the Nth that is refused.
next() { n=$((n + ($1 < 700 ? 1 : 7))); }

# Tells a difference.
differs() {
    bad=$((bad + 1))
    printf '%s, growth %s, differs: status %s: %s\n' "$1" "$2" "$status" "$out$err"
}

# How many growths were refused, and how many runs told of it.
tell() { printf '%-24s %6d refused %6d told\n' "$1" "$2" "$3"; }

# A row of `tests_memory_rows`.
sweep_row() {
    local n=1 refused=0 told=0
    while run "$n" "$rows" "$1"; do
        refused=$((refused + 1))
        case "$status $out$err" in
            "0 $1 refused"$'\n') told=$((told + 1)) ;;
            "0 $1 answered"$'\n') ;;
            *) differs "$1" "$n" ;;
        esac
        next "$n"
    done
    [ "$status $out$err" = "0 $1 answered"$'\n' ] || differs "$1" none
    if [ "$told" = 0 ]; then differs "$1" "of none was refused"; fi
    tell "$1" "$refused" "$told"
}

# Whether OUT, if the command has one, is as that file.
is_out() { [ ! -e "$work/before" ] || cmp -s "$work/$1" "$work/out"; }

# Whether standard error is as with all memory; figures may differ.
is_err() { [[ $err == "$whole_err" || (-n $has_figures && ${err//[0-9]/} == "${whole_err//[0-9]/}") ]]; }

# Whether the run did what is done with all memory.
is_whole() { [[ $status == "$wanted_status" && $out == "$whole" ]] && is_err && is_out after; }

# Whether a line names want of memory, and the status is the one that it has; where OUT is being
# written it says that it can't be, and no other file is left.
names_memory() {
    local form
    case $status in
        1)
            if [ "$1" = "cannot write" ]; then
                [ -e "$work/before" ] && ! compgen -G "$work/.radoscls-*" > /dev/null
                return
            fi
            form='^(no memory|(image refused after [0-9]+ methods: 12|refused method 0 slot 0: 16'
            form+='|line 0: 5|line [0-9]+: refused [24]|object refused: 7|call refused: 3) NoMemory)$'
            ;;
        0) form='^client [0-9]+ call [0-9]+ refused 8 NoMemory$' ;;
        *) return 1 ;;
    esac
    [[ $1 =~ $form ]]
}

# Whether the run printed whole lines of what is always printed, and then one that names want of
# memory; lines of `cluster` follow that of a refused call, which are those of other calls.
is_refused() {
    local lines line begun=
    mapfile -t lines <<< "${out%$'\n'}"
    for line in "${lines[@]}"; do
        if names_memory "$line"; then
            if [ "$status" = 0 ]; then is_err; else [[ $out == "$begun$line"$'\n' && -z $err ]]; fi &&
                is_out before
            return
        fi
        begun+=$line$'\n'
        [[ $whole == "$begun"* ]] || return 1
    done
    return 1
}

# Whether of one file, of those that `verify` was given, want of memory is told in place of its
# lines, and of the others what is always told.
is_file_refused() {
    local lines line file=
    mapfile -t lines <<< "${out%$'\n'}"
    for line in "${lines[@]}"; do
        if [[ $line == *": "* ]] && names_memory "${line#*: }"; then file=${line%%: *}; fi
    done
    [[ -n $file && $status == 1 && -z $err && $(grep -c "^$file: " <<< "$out") == 1 &&
        $(grep -v "^$file: " <<< "$out") == "$(grep -v "^$file: " <<< "$whole")" ]]
}

# Whether the end of an explained refusal is missing alone.
is_unexplained() {
    [[ $status$wanted_status == 11 && $out == *$'\n' && $whole == "$out"* && -z $err ]] &&
        is_out before
}

# A command of `radoscls` that ends with that status; it writes OUT where a word is `out`. What it
# prints and writes with all its memory is `whole`, `whole_err` and the file `after`.
sweep_command() {
    local name=$1 wanted_status=$2 n=1 refused=0 told=0 unwritten=0 whole whole_err has_figures=
    shift 2
    rm -f "$work/before" "$work/after" "$work/out"
    if [[ " $* " == *" out "* ]]; then printf before | tee "$work/before" > "$work/out"; fi
    if [[ " $* " == *" --stats "* ]]; then has_figures=yes; fi
    run 0 "$radoscls" "$@"
    whole=$out whole_err=$err
    [ "$status" = "$wanted_status" ] || differs "$name" none
    if [ -e "$work/out" ]; then mv "$work/out" "$work/after"; fi
    while
        if [ -e "$work/before" ]; then cp "$work/before" "$work/out"; fi
        run "$n" "$radoscls" "$@"
    do
        refused=$((refused + 1))
        if is_whole; then
            :
        elif is_refused || is_file_refused || is_unexplained; then
            told=$((told + 1))
        else
            differs "$name" "$n"
        fi
        # OUT is written last, and by few growths: those of the new file's name.
        if [ -e "$work/before" ]; then
            case $out in
                *"cannot write"*) unwritten=$((unwritten + 1)) ;;
                *) [ "$unwritten" = 0 ] || differs "$name" "$n" ;;
            esac
        fi
        next "$n"
    done
    if [ "$told" = 0 ]; then differs "$name" "of none was refused"; fi
    if [ "$unwritten" -gt 8 ]; then differs "$name" "one of $unwritten that aren't written"; fi
    tell "$name" "$refused" "$told"
}

: > "$work/two.img"
if [ "$rows" != - ]; then
    for row in $(cut -d ' ' -f 1 "$top/crates/tests_memory_rows/stdout"); do
        if is_wanted "$row"; then sweep_row "$row"; fi
    done
fi

if [ "$radoscls" != - ]; then
    cp "$top"/examples/*.img "$top"/examples/*.txt "$top"/examples/*.sim "$top"/examples/*.test "$work"
    printf '\xb7\0\0\0\0\0\0\0\x95\0\0\0\0\0\0\0' > "$work/code"
    printf 'RCL1\1\0\0\0\1f\1\0\0\0\0\1\0\x95\0\0\0\0\0\0\0' > "$work/unsafe.img"
    printf '.method f r 0 0\nmov r0\nexit\n' > "$work/wrong.txt"
    printf '.method f r 0 0\nmov r0, 0\nexit\n.method g r 0 0\nexit\n' > "$work/mixed.txt"
    printf 'data 6162\nxattr a 01\nxattr b -\nkey c 02\n' > "$work/held"
    printf 'map 1\nmap\nsee one 1\n' > "$work/wrong.sim"
    mkdir "$work/classes"
    cp "$work/two.img" "$work/keep.txt" "$work/classes"
    # One client and one worker: what is printed is the same each time. A call is tried for as long
    # as a run has, also on a busy machine.
    numbers='cluster nodes 2 replicas 2 groups 1 shards 1 workers 1 tries 4294967295'
    printf '%s\nclient 1 a lock lock -\n' "$numbers" > "$work/one.cluster"
    printf '%s\nclient 1 a lock lock -\nmap 0\nclient 1 a lock unlock -\n' "$numbers" \
        > "$work/map.cluster"
    printf '%s\nclient 1 a lock lock -\nmap 2\n' "$numbers" > "$work/wrong.cluster"
    # A name, the status, and words; standard input is two.img.
    commands=(
        'verify 0 verify two.img'
        'stdin 0 verify -'
        'unsafe 1 verify unsafe.img --explain'
        'missing 1 verify missing.img --explain'
        'all 0 verify two.img --all'
        'mixed 1 verify mixed.txt --all --explain'
        'folder 0 verify classes'
        'run 0 run keep.img keep --input 726f6f74 --caller 7'
        'object 0 run keep.img keep --object 6162 --xattr a=01 --xattr b= --key c=02 --show'
        'values 0 run keep.img keep --object @code --xattr a=@code --key b=- --show'
        'no_value 1 run keep.img keep --object @missing --explain'
        'saved 0 run keep.img keep --input 726f6f74 --load held --save out'
        'absent 0 run two.txt f --save out'
        'wrong_load 1 run keep.img keep --load wrong.txt --explain'
        'unsaved 1 run keep.img keep --save . --explain'
        'method 1 run keep.img none --explain'
        'hex 1 run keep.img keep --key a=0'
        'tests 0 test patterns.txt patterns.test'
        'differs 1 test two.txt count.test'
        'asm 0 asm keep.txt out'
        'wrong_text 1 asm wrong.txt out --explain'
        'unwritten 1 asm keep.txt . --explain'
        'pack 0 pack --rules 2 out f:r:0:0:code g:w:8:8:code'
        'wrong_code 1 pack out f:r:0:0:two.img --explain'
        'dis 0 dis keep.img --slots'
        'sim 0 sim lost_ack.sim --class keep=keep.img'
        'objects 0 sim --objects survive.sim'
        'wrong_sim 1 sim wrong.sim'
        'told_sim 1 sim wrong.sim --explain'
        'trace 0 sim --trace lost_ack.sim'
        'cluster 0 cluster one.cluster --class keep=keep.img --stats'
        'map 0 cluster map.cluster'
        'wrong_map 1 cluster wrong.cluster --stats'
        'usage 2 run keep.img keep --caller 0'
        'no_method 2 pack out f'
        'two_objects 2 run keep.img keep --load held --key a=00'
        'no_class 2 sim lost_ack.sim --class lock=keep.img'
        'two_inputs 2 sim - --class keep=-'
        'no_output 2 asm keep.txt -'
        'no_words 2'
        'help 2 --help'
        'help_run 2 run --help'
        'version 2 --version'
    )
    for command in "${commands[@]}"; do
        if is_wanted "${command%% *}"; then sweep_command $command; fi
    done
fi

if [ "$bad" != 0 ]; then
    echo "$bad differences"
    exit 1
fi
echo "no difference"

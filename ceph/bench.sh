#!/usr/bin/env bash
# Measures calls of our classes beside those of Ceph's own, in C++ and in Lua, in one run on one
# machine, and prints the tables of docs/CEPH.md.
#
#     ceph/bench.sh      some twenty minutes; all daemons and the clients on one processor, objects in
#                        memory, so that no disk is measured
#
# Of the environment: that of ceph/build.sh; STORE (memstore), or bluestore: memory hides what a write
# costs, and with it bytes of log are counted too; SIZES, the bytes of an object's data (64 65536), KEYS,
# its other keys (0), CLIENTS (1 4 16), WORKS (all that ceph/bench/calls.c has, but for a log's): each is
# measured with each; CPU, the processor (the last one); NICE, the
# priority of all (0), -20 where others compute on the machine; ROUNDS, how often each is measured (3; 0
# leaves the tables out): the median counts; TIME, the seconds of each work, by turns of half a second
# with the others (5); CHANGES, over how many changes of one client the log is counted (2000); CALLS, over
# how many calls an OSD's memory is looked at (100000). 0 leaves the last two out.
set -eu
here=$(cd "$(dirname "$0")" && pwd)
work=$(mktemp -d /tmp/sillarnica-bench.XXXXXX)
cluster=$work/cluster
trap '"$here/cluster.sh" stop "$cluster"; rm -rf "$work"' EXIT
cpu=${CPU:-$(($(nproc --all) - 1))} rounds=${ROUNDS:-3} time=${TIME:-5} changes=${CHANGES:-2000} calls=${CALLS:-100000}
store=${STORE:-memstore} priority=${NICE:-0}
export CEPH_CONF=$cluster/ceph.conf OSDS=
sizes=(${SIZES:-64 65536}) all_keys=(${KEYS:-0}) all_clients=(${CLIENTS:-1 4 16})
unset KEYS
works=(${WORKS:-lock lock.2 bpf_lock numops count bpf_count lua hello stat bpf_stat replay read bpf_read})
declare -A title=(
    [lock]='lock and unlock: C++ `lock`' [lock.2]='lock and unlock: ours' [bpf_lock]='lock and unlock: ours, loaded'
    [numops]='a counter: C++ `numops`' [count]='a counter: ours' [bpf_count]='a counter: ours, loaded'
    [lua]='a counter: `lua`' [hello]='a read: C++ `hello`, of no object'
    [stat]='a read: ours, the length' [bpf_stat]='a read: ours, loaded, the length'
    [replay]='a read: C++ `hello`, 1,100 bytes'
    [read]='a read: ours, 64 bytes' [bpf_read]='a read: ours, loaded, 64 bytes'
    [log]='an entry of a log, and the oldest goes: C++ `log`' [logs]='an entry of a log, and the oldest goes: ours'
    [log_list]='1,000 entries of a log: C++ `log`' [logs_list]='1,000 names of a log: ours, four calls'
)
# What the same is in C++.
declare -A beside=(
    [lock.2]=lock [bpf_lock]=lock [count]=numops [bpf_count]=numops [lua]=numops [read]=replay [bpf_read]=replay
    [logs]=log [logs_list]=log_list
)

"$here/build.sh" "$work/build"
gcc -O2 -Wall -Wextra -o "$work/calls" "$here/bench/calls.c" -lrados -lpthread -lm
cp "$here"/classes/*.img "$here/../examples/count.img" "$work/build"
cp "$here/classes/lock.img" "$work/build/lock.2.img"
"$here/bench/logs.py" "$work/build/logs.img"
for class in lock.2 count reads logs; do
    "$here/radosbpf" install "$work/build/$class.img" --dir "$work/build/classes" > "$work/log"
done
# A group's log is kept short, else it would grow in memory over all calls that are measured.
log=$'[osd]\nosd min pg log entries = 100\nosd max pg log entries = 100\nosd pg log dups tracked = 100'
CLASSES=$work/build/classes LISTED="lua lock.2 count reads logs" STORE=$store CPUS=$cpu EXTRA=$log \
    nice -n "$priority" "$here/cluster.sh" start "$cluster" >&2
OSDS=$(awk '/^osd/ { printf "%s ", $2 }' "$cluster/pids")
# Where a kernel groups processes by their sessions, a group has a priority of its own.
for id in self $(awk '{ print $2 }' "$cluster/pids"); do
    if [ -w "/proc/$id/autogroup" ]; then echo "$priority" > "/proc/$id/autogroup"; fi
done

# measure WORK,WORK,.. CLIENTS SECONDS SIZE KEYS [MOST]
measure() {
    KEYS=$5 timeout 600 taskset -c "$cpu" nice -n "$priority" \
        "$work/calls" "$1" "$2" "$3" "$4" "$work/build" "${@:6}"
}
median() { sort -n | awk '{ all[NR] = $1 } END { print all[int((NR + 1) / 2)] }'; }

for ((round = 1; round <= rounds; round++)); do
    for size in "${sizes[@]}"; do
        for keys in "${all_keys[@]}"; do
            for clients in "${all_clients[@]}"; do
                list=$(IFS=,; echo "${works[*]}")
                measure "$list" "$clients" "$time" "$size" "$keys" > "$work/log"
                while read -r each figures; do echo "$figures" >> "$work/$each.$clients.$size.$keys"; done < "$work/log"
            done
        done
    done
    echo "round $round of $rounds, $SECONDS seconds" >&2
done

processor=$(awk -F ': ' '/model name/ { print $2; exit }' /proc/cpuinfo)
echo "Ceph $(ceph-osd --version | awk '{ print $3 }'), $store, $(uname -m), $processor, $rounds rounds of $time seconds"

# table WHAT SIZE KEYS COMMAND ..: a row for each work, of what a command makes of its files.
table() {
    local what=$1 size=$2 keys=$3 each clients
    printf '\n| %s: objects of %s bytes, %s other keys; clients |' "$what" "$size" "$keys"
    printf ' %s |' "${all_clients[@]}"
    printf '\n|---|%s\n' "$(printf -- '---|%.0s' "${all_clients[@]}")"
    for each in "${works[@]}"; do
        printf '| %s |' "${title[$each]}"
        for clients in "${all_clients[@]}"; do printf ' %s |' "$("$4" "$each" "$clients.$size.$keys")"; done
        printf '\n'
    done
}
calls_a_second() { median < "$work/$1.$2"; }
processor_time() { awk '{ print $4 }' "$work/$1.$2" | median; }
# beside_cpp WORK PLACE COLUMN: in C++ it is 1. Both are of one round.
beside_cpp() {
    local other=${beside[$1]-}
    [ -f "$work/$other.$2" ] || return 0
    paste -d ' ' "$work/$1.$2" "$work/$other.$2" | awk -v at="$3" '{ printf "%.3f\n", $at / $(at + 5) }' | median
}
calls_beside_cpp() { beside_cpp "$1" "$2" 1; }
time_beside_cpp() { beside_cpp "$1" "$2" 4; }
if [ "$rounds" -gt 0 ]; then
    for size in "${sizes[@]}"; do
        for keys in "${all_keys[@]}"; do
            table 'calls a second' "$size" "$keys" calls_a_second
            table 'of those in C++' "$size" "$keys" calls_beside_cpp
            table "the OSDs' processor time a call, microseconds" "$size" "$keys" processor_time
            table 'of that in C++' "$size" "$keys" time_beside_cpp
        done
    done
fi

# The bytes that all OSDs wrote to the log of their databases, where each change is before it is
# answered.
written() {
    local number
    for number in 0 1 2; do
        ceph daemon "$cluster/run/osd.$number.asok" perf dump bluefs bytes_written_wal
    done | awk '/bytes_written_wal/ { sum += $2 } END { printf "%.0f\n", sum }'
}
if [ "$store" = bluestore ] && [ "$changes" -gt 0 ]; then
    printf '\nBytes of log of an OSD a change, over %s changes of one client:\n' "$changes"
    for size in "${sizes[@]}"; do
        for each in "${works[@]}"; do
            case $each in *stat | *read | hello | replay | *list) continue ;; esac
            before=$(written)
            measure "$each" 1 600 "$size" 0 "$changes" > "$work/log"
            echo "objects of $size bytes, ${title[$each]}: $((($(written) - before) / 3 / changes))"
        done
    done
fi

# The memory of each OSD.
resident() {
    grep '^osd' "$cluster/pids" | while read -r name id; do
        awk -v name="$name" '/^VmRSS/ { print name, $2 }' "/proc/$id/status"
    done
}
[ "$calls" -gt 0 ] || exit 0
# What an OSD keeps for its own is full after some thousand calls.
for each in bpf_read bpf_lock; do measure $each 16 600 64 0 20000 > "$work/log"; done
resident > "$work/before"
for each in bpf_read bpf_lock; do measure $each 16 600 64 0 $((calls / 2)) > "$work/log"; done
resident > "$work/after"
printf '\nMemory of the OSDs over %s further calls, in KiB:\n' "$calls"
paste -d ' ' "$work/before" "$work/after" | awk '{ printf "%s %d to %d\n", $1, $2, $4 }'

#!/usr/bin/env bash
# A small Ceph cluster on 127.0.0.1, to try classes in: a monitor, a manager, three OSDs, with keys
# for its users, and a pool `bpf` of size 3.
#
#     ceph/cluster.sh start DIR      starts it, and keeps all in DIR, a new folder. Some 30 seconds
#     ceph/cluster.sh stop DIR       ends its processes, by their ids; DIR stays
#     ceph/cluster.sh kill DIR N     ends OSD N at once, as a lost machine would
#     ceph/cluster.sh osd DIR N      starts OSD N again
#
# Then `ceph -c DIR/ceph.conf ..`, `rados -c DIR/ceph.conf -p bpf ..` and `radosbpf -c DIR/ceph.conf
# -p bpf ..` reach it. `client.admin` may do all, `client.tenant` may call the methods `exec` and
# `query` of the class `bpf`, in the pool's namespace `tenant`, and nothing else, and `client.adder` the
# method `add` of the class `counter` in the pool.
#
# Of the environment: CLASSES is the folder of the OSDs' classes (Ceph's own), LISTED names classes
# that they may open besides the shipped ones and `bpf` (none), STORE what they keep objects in
# (bluestore; memstore forgets all at a kill), CPUS the processors that they run on, as `taskset`
# takes them (all), EXTRA lines that end ceph.conf.
set -eu
here=$(cd "$(dirname "$0")" && pwd)
command=${1-} dir=$(realpath -m "${2:-.}") number=${3-}
conf=$dir/ceph.conf

usage() {
    sed -n 's/^# *\(ceph\/cluster.sh\)/\1/p' "$here/cluster.sh" >&2
    exit 2
}

# The classes that an OSD opens as it is shipped. `ceph-osd` is asked for them without a cluster.
shipped_classes() { ceph-osd --show-config-value osd_class_load_list -c /dev/null; }

# No `ceph` command is waited for forever: without a monitor it would try on, and some hang without
# a manager.
ceph_within() { timeout "$1" ceph -c "$conf" --connect-timeout "$1" "${@:2}"; }

# Waits for a condition, at most so many seconds.
await() {
    local end=$((SECONDS + $1))
    until "${@:2}"; do
        [ $SECONDS -lt $end ] || return 1
        sleep 0.5
    done
}

# daemon NAME COMMAND ..: starts it and notes its id in place of an older one.
daemon() {
    local name=$1
    shift
    touch "$dir/pids"
    sed -i "/^$name /d" "$dir/pids"
    setsid taskset -c "${CPUS:-0-$(($(nproc --all) - 1))}" "$@" >> "$dir/log/$name.out" 2>&1 < /dev/null &
    echo "$name $!" >> "$dir/pids"
}

# The id of a daemon that still runs. An id may have gone to another process since, so its words are
# looked at.
id_of() {
    local id
    id=$(awk -v name="$1" '$1 == name { print $2 }' "$dir/pids")
    [ -n "$id" ] && grep -qzF "$conf" "/proc/$id/cmdline" 2> /dev/null && echo "$id"
}

gone() { ! id_of "$1" > /dev/null; }

start_osd() { daemon "osd.$1" ceph-osd -c "$conf" -i "$1" -f; }

kill_osd() {
    kill -9 "$(id_of "osd.$1")"
    await 10 gone "osd.$1"
}

stop() {
    local name id signal
    [ -f "$dir/pids" ] || return 0
    for signal in TERM KILL; do
        while read -r name _; do
            if id=$(id_of "$name"); then kill "-$signal" "$id" || true; fi
        done < "$dir/pids"
        while read -r name _; do
            await 10 gone "$name" || true
        done < "$dir/pids"
    done
}

# Two ports that nothing listens on.
free_ports() {
    python3 -c '
import socket
held = [socket.socket() for _ in range(2)]
for each in held: each.bind(("127.0.0.1", 0))
print(*(each.getsockname()[1] for each in held))'
}

write_conf() {
    local ports=()
    read -ra ports <<< "$(free_ports)"
    monitor="v2:127.0.0.1:${ports[0]}/0,v1:127.0.0.1:${ports[1]}/0"
    fsid=$(cat /proc/sys/kernel/random/uuid)
    cat > "$conf" << END
[global]
fsid = $fsid
mon host = [$monitor]
mon initial members = a
public addr = 127.0.0.1
cluster addr = 127.0.0.1
ms bind ipv6 = false
keyring = $dir/keyring
run dir = $dir/run
admin socket = $dir/run/\$name.asok
pid file =
crash dir = $dir/crash
log file = $dir/log/\$name.log
log to stderr = false
mon cluster log file = $dir/log/cluster.log
setuser match path =
osd pool default size = 3
osd pool default min size = 2
osd pool default pg autoscale mode = off
osd crush chooseleaf type = 0
mon allow pool delete = true
mon osd down out interval = 600
mon osd min down reporters = 1
mon osd adjust heartbeat grace = false
mon data avail crit = 1
mon data avail warn = 2
[client]
admin socket =
[mon.a]
mon data = $dir/mon
[mgr]
mgr data = $dir/mgr
mgr initial modules =
[osd]
osd data = $dir/osd\$id
osd objectstore = ${STORE:-bluestore}
bluestore block size = 1073741824
bluestore block db create = false
bluestore block wal create = false
bluestore cache size = 67108864
osd memory target = 939524096
memstore device bytes = 1073741824
osd heartbeat grace = 6
osd heartbeat interval = 1
osd scrub begin hour = 0
osd scrub end hour = 1
osd max scrubs = 4
osd class update on start = false
osd class dir = ${CLASSES:-/usr/lib/$(uname -m)-linux-gnu/rados-classes}
osd class load list = $(shipped_classes) bpf ${LISTED-}
debug objclass = 1
${EXTRA-}
END
}

# A key and its rights for each daemon and user, all in one file.
make_keys() {
    key() {
        local name=$1 caps=()
        shift
        while [ $# -gt 0 ]; do
            caps+=(--cap "$1" "$2")
            shift 2
        done
        ceph-authtool "$dir/keyring" --gen-key -n "$name" "${caps[@]}" > /dev/null
    }
    ceph-authtool "$dir/keyring" --create-keyring > /dev/null
    key mon. mon 'allow *'
    key client.admin mon 'allow *' mgr 'allow *' osd 'allow *'
    place='pool=bpf namespace=tenant'
    key client.tenant mon 'allow r' osd "allow class bpf exec $place, allow class bpf query $place"
    key client.adder mon 'allow r' osd 'allow class counter add pool=bpf'
    key mgr.x mon 'allow profile mgr' osd 'allow *'
    for number in 0 1 2; do
        key "osd.$number" mon 'allow profile osd' mgr 'allow profile osd' osd 'allow *'
    done
}

start_monitor() {
    monmaptool --create --fsid "$fsid" --addv a "[$monitor]" "$dir/monmap" > /dev/null
    ceph-mon -c "$conf" --mkfs -i a --monmap "$dir/monmap" --keyring "$dir/keyring"
    daemon mon ceph-mon -c "$conf" -i a -f
    answers() { ceph_within 60 mon stat > /dev/null 2>&1; }
    await 600 answers
}

start_osds() {
    local number id
    for number in 0 1 2; do
        mkdir "$dir/osd$number"
        id=$(cat /proc/sys/kernel/random/uuid)
        ceph_within 120 osd new "$id" > /dev/null
        ceph-osd -c "$conf" -i "$number" --mkfs --osd-uuid "$id" > "$dir/log/mkfs.$number.out" 2>&1
        start_osd "$number"
    done
}

start() {
    [ ! -e "$dir" ] || { echo "$dir is there" >&2; exit 1; }
    mkdir -p "$dir"/{mon,mgr,run,log,crash}
    trap '[ $? = 0 ] || { tail -n 5 "$dir"/log/*.out "$dir"/log/*.log >&2; stop; }' EXIT
    write_conf
    make_keys
    start_monitor
    daemon mgr ceph-mgr -c "$conf" -i x -f
    start_osds
    ceph_within 120 osd pool create bpf 16 16 replicated > /dev/null 2>&1
    ceph_within 120 osd pool application enable bpf rados > /dev/null 2>&1
    clean() { ceph_within 60 pg stat 2> /dev/null | grep -qE '^([0-9]+) pgs: \1 active\+clean;'; }
    await 600 clean
    echo "a cluster in $dir: $(ceph_within 60 osd stat)"
}

case $command$# in
    start2) start ;;
    stop2) stop ;;
    kill3) kill_osd "$number" ;;
    osd3) start_osd "$number" ;;
    *) usage ;;
esac

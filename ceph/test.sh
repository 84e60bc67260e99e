#!/usr/bin/env bash
# Tests the plug-in, as a package, in a real Ceph cluster of Debian's packages on 127.0.0.1, and the
# classes of examples/ceph in place of Ceph's own in another one. Some twelve minutes; the last line is
# `ok` or `failed`.
#
#     ceph/test.sh                 as root: it installs the packages that are missing, and the
#                                  plug-in's own, which it removes again
#     ceph/test.sh --release 18    the same in the folder of ceph/chroot.sh, with the packages that are
#                                  built here: one package is for all releases
#
# Whatever can't be run is a failure. It keeps all in a folder under /tmp, which it removes, and
# ends the processes that it started by their ids. How long it may take isn't limited closely, since a
# machine may be shared: a test of ceph/tests ends if no call of it is answered for five minutes.
#
# Of the environment: that of ceph/build.sh, and RADOSCLS, the program
# (crates/radoscls/out/radoscls). KEEP=1 keeps the folder. CHROOT is the folder of ceph/chroot.sh
# (/var/tmp/sillarnica-chroot). PACKAGES is a folder of packages of the plug-in and of a class, which are
# installed in place of those that are built, PORTS one of the images of examples/ceph, which are made by
# clang else.
set -u
here=$(cd "$(dirname "$0")" && pwd)
top=$(dirname "$here")
export SILLARNICA_ARCHIVE=${SILLARNICA_ARCHIVE:-$top/crates/sillarnica/out/libsillarnica.a}
export SILLARNICA_INCLUDE=${SILLARNICA_INCLUDE:-$top/include}
export SILLARNICA_LIBC=${SILLARNICA_LIBC:-$(dirname "$(rt doc)")/c/liblibc_c.a}
radoscls=${RADOSCLS:-$top/crates/radoscls/out/radoscls}
work=$(mktemp -d /tmp/sillarnica-ceph.XXXXXX)
cluster=$work/cluster ported=$work/ported libraries=/usr/lib/$(uname -m)-linux-gnu
folder=$libraries/rados-classes
# Classes that are installed, and files in the folder that are none, besides `counter`, a package.
natives=(helpers count lock.2 environment loops older third) odd=(cut none bpf.old link greater damaged)
# The tests take the cluster and the command from here, and nothing of the caller's settings.
export CEPH_CONF=$cluster/ceph.conf RADOSBPF=/usr/bin/radosbpf PYTHONDONTWRITEBYTECODE=1
unset CLASSES LISTED STORE EXTRA
bad=0
packages=(g++ gcc binutils python3 python3-rados man-db bash-completion ceph-base ceph-common ceph-mgr ceph-mon ceph-osd
    librados2 librados-dev libradospp-dev rados-objclass-dev)

# Runs all of it in a folder with another release of Ceph.
other_release() {
    local root=${CHROOT:-/var/tmp/sillarnica-chroot} to
    "$here/chroot.sh" "$root" || exit 1
    chroot "$root" ceph-osd --version | grep -q "version $1\\." || { echo "$root has no Ceph $1"; exit 1; }
    to=$root/srv/sillarnica
    rm -rf "$to"
    mkdir -p "$to"
    cp -r "$here" "$top/docs" "$top/include" "$top/examples" "$top/LICENSE" "$top/VERSION" "$to"
    RADOSCLS=$radoscls "$here/ports.sh" images "$to/ports" || exit 1
    cp "$SILLARNICA_ARCHIVE" "$SILLARNICA_LIBC" "$radoscls" "$to"
    "$here/package.sh" "$to/packages" || exit 1
    "$here/package.sh" "$to/packages" --class "$here/classes/counter.img" --budget 5000 || exit 1
    trap 'umount "$root/dev" "$root/proc"; rm -rf "$to" "$work"' EXIT
    mount --bind /proc "$root/proc"
    mount --bind /dev "$root/dev"
    chroot "$root" env -i HOME=/root LANG=C.UTF-8 PATH=/usr/sbin:/usr/bin:/sbin:/bin \
        SILLARNICA_ARCHIVE="/srv/sillarnica/$(basename "$SILLARNICA_ARCHIVE")" \
        SILLARNICA_LIBC="/srv/sillarnica/$(basename "$SILLARNICA_LIBC")" SILLARNICA_INCLUDE=/srv/sillarnica/include \
        RADOSCLS="/srv/sillarnica/$(basename "$radoscls")" PACKAGES=/srv/sillarnica/packages \
        PORTS=/srv/sillarnica/ports /srv/sillarnica/ceph/test.sh
    exit
}

case $#,${1-} in
    0,) ;;
    2,--release) other_release "$2" ;;
    *) sed -n 's/^#  *\(ceph\/\)/\1/p' "$0" >&2; exit 2 ;;
esac

# The package, and what is put into the folder of classes besides.
uninstall() {
    local name
    for name in "${natives[@]}"; do radosbpf uninstall "$name" > /dev/null 2>&1; done
    for name in "${odd[@]}" bpf; do rm -f "$folder/libcls_$name.so" "$folder/$name".{img,budget,sent}; done
    dpkg --purge sillarnica-class-counter sillarnica-ceph > /dev/null 2>&1
}

finish() {
    local job
    trap - EXIT
    for job in $(jobs -p); do kill "$job" 2> /dev/null; done
    "$here/cluster.sh" stop "$cluster"
    "$here/cluster.sh" stop "$ported/cluster"
    if [ -n "${installed-}" ]; then uninstall; fi
    if [ -n "${KEEP-}" ]; then echo "all is in $work"; else rm -rf "$work"; fi
    if [ "$1" = 0 ]; then echo ok; else echo failed; fi
    exit "$1"
}
trap 'finish 1' EXIT
trap 'exit 1' INT TERM HUP

stop_at() {
    echo "BAD  $1"
    [ ! -f "$work/log" ] || tail -n 20 "$work/log"
    exit 1
}

# want WHAT FOUND WANTED
want() {
    if [ "$2" = "$3" ]; then
        echo "ok   $1"
    else
        printf 'BAD  %s: %s\n     not %s\n' "$1" "$2" "$3"
        bad=1
    fi
}

# test_of NAME WORDS: runs a test of ceph/tests, which prints its own lines, and ends if it stands still.
test_of() {
    timeout 7200 python3 "$here/tests/$1.py" "${@:2}" 2> "$work/errors.$1" && return
    echo "BAD  $1 ended with $?"
    bad=1
    tail -n 20 "$work/errors.$1"
}

ceph_within() { timeout "$1" ceph --connect-timeout "$1" "${@:2}" 2> /dev/null; }

await() {
    local end=$((SECONDS + $1))
    until "${@:2}"; do
        [ $SECONDS -lt $end ] || return 1
        sleep 1
    done
}

is_clean() { ceph_within 60 pg stat | grep -qE '^([0-9]+) pgs: \1 active\+clean;'; }

# Each OSD has groups and answers. A slow machine's groups are clean for some seconds after an OSD was
# killed, as nobody has told the monitor yet.
all_asked() { timeout 120 radosbpf check bpf 2>&1 | grep -q '^3 OSDs asked'; }

# A command's status, and all that it prints, in one line.
said() {
    local printed
    printed=$(timeout "${WITHIN:-300}" "$@" 2>&1 < /dev/null)
    echo "$? ${printed//$'\n'/, }"
}

install_packages() {
    local missing=()
    for name in "${packages[@]}"; do
        dpkg-query -W -f '${Status}\n' "$name" 2> /dev/null | grep -q '^install ok installed$' || missing+=("$name")
    done
    [ ${#missing[@]} = 0 ] && return
    export DEBIAN_FRONTEND=noninteractive
    for _ in 1 2 3; do
        timeout 600 apt-get update > "$work/log" 2>&1
        if timeout 1800 apt-get install -y --no-install-recommends "${missing[@]}" >> "$work/log" 2>&1; then
            echo "ok   installed ${missing[*]}"
            return
        fi
        sleep 20
    done
    stop_at "Debian's packages can't be installed: ${missing[*]}"
}

# The images of the tests, which radoscls makes of their texts; those that are stored are the same.
make_images() {
    local name
    mkdir "$work/images"
    for name in lock reads counter; do
        "$radoscls" asm "$here/classes/$name.txt" "$work/$name.img"
        cmp "$work/$name.img" "$here/classes/$name.img"
        want "$name.img is the image of $name.txt" $? 0
    done
    for name in helpers third environment; do
        "$radoscls" asm "$here/tests/$name.txt" "$work/images/$name.img" || stop_at "radoscls makes no images"
    done
    # Apart from the others: the class `bpf` takes none of these.
    mkdir "$work/loops"
    "$radoscls" asm "$here/tests/loops.txt" "$work/loops/loops.img" || stop_at "radoscls makes no images"
    cp "$here/classes/lock.img" "$top/examples/count.img" "$work/images"
}

try_build() {
    local none=$work/none
    mkdir "$none" "$none/bin"
    printf '#!/bin/sh\necho ceph version 17.2.0\n' > "$none/bin/ceph-osd"
    chmod +x "$none/bin/ceph-osd"
    want "a build for another release" "$(PATH=$none/bin:$PATH said "$here/build.sh" "$none/out")" \
        "1 ceph/build.sh: this is Ceph 17.2.0, and the plug-in is for 16, 18"
    {
        echo 'int missing(void); int sillarnica_version(void) { return missing(); }'
        printf 'int sillarnica_%s(void) { return 0; }\n' verify explain needs loops_open loops_explain verified_open \
            verified_copy verified_method_at verified_needs verified_call_part verified_close
    } > "$none/none.c"
    gcc -fPIC -c "$none/none.c" -o "$none/none.o" && ar rcs "$none/none.a" "$none/none.o"
    want "a name that the OSD doesn't export" "$(WITHIN=1800 SILLARNICA_ARCHIVE=$none/none.a said "$here/build.sh" "$none/out")" \
        "1 ceph/build.sh: this Ceph doesn't export missing"
    timeout 1800 "$here/package.sh" "$work/package" > "$work/log" 2>&1 || stop_at "there is no package"
}

install_package() {
    local file
    # What a run left that was killed, which would be told among what is installed.
    uninstall
    installed=yes
    if [ -n "${PACKAGES-}" ]; then cp "$PACKAGES"/*.deb "$work/package"; fi
    dpkg -i "$work"/package/sillarnica-ceph_*.deb > "$work/log" 2>&1 || stop_at "the package can't be installed"
    for file in "$folder"/{libcls_bpf,sillarnica_engine,sillarnica_calls}.so /usr/bin/radosbpf /usr/share/man/man1/radosbpf.1.gz \
        /usr/share/bash-completion/completions/radosbpf /usr/share/doc/sillarnica-ceph/CEPH.md; do
        want "the package has $file" "$(dpkg -S "$file" 2>&1)" "sillarnica-ceph: $file"
    done
    timeout 1800 "$here/package.sh" "$work/package" --class "$here/classes/counter.img" --budget 5000 \
        > "$work/log" 2>&1 || stop_at "there is no package of a class"
    if [ -n "${PACKAGES-}" ]; then cp "$PACKAGES"/*.deb "$work/package"; fi
    dpkg -i "$work"/package/sillarnica-class-counter_1_*.deb > "$work/log" 2>&1 ||
        stop_at "a class's package can't be installed"
    for file in "$folder"/{libcls_counter.so,counter.img,counter.budget}; do
        want "a class's package has $file" "$(dpkg -S "$file" 2>&1)" "sillarnica-class-counter: $file"
    done
    want "the man page" "$(man --warnings -P cat radosbpf 2>&1 | head -n 1 | tr -s ' ')" \
        "RADOSBPF(1) User Commands RADOSBPF(1)"
    want "the completion" "$(completed radosbpf -p bpf -N tenant lo)" "load"
    want "the completion of an option" "$(completed radosbpf --na)" "--namespace --name"
    want "the completion of a budget" "$(completed radosbpf install counter.img --b)" "--budget"
    want "the completion of a class" "$(cd "$here/classes" && completed radosbpf -p bpf call a @lock.i)" "@lock.img"
}

# What bash completes the last of these words to.
completed() {
    bash -c '. /usr/share/bash-completion/completions/radosbpf
        COMP_WORDS=("$@") COMP_CWORD=$(($# - 1)); _radosbpf; echo "${COMPREPLY[@]}"' - "$@"
}

# The plug-in over a stand-in of the OSD's calls, with the compiler's tests of memory and of
# arithmetic, and of threads.
try_stand_in() {
    local sanitizers to words
    for sanitizers in address,undefined thread; do
        to=$work/${sanitizers%,*}
        "$here/tests/stand_in.sh" "$here/plugin" "$to" "$work/images" $sanitizers > "$work/log" 2>&1 ||
            stop_at "the stand-in can't be built"
    done
    "$work/address/lists" || bad=1
    test_of threads "$work/images" "$work/thread/stand_in" "$work/thread/classes"
    words=(stand-in "$work/address/stand_in" "$work/address/classes")
    test_of loops "$work/loops" "${words[@]}"
    for each in native refusals lock limits rounds; do test_of $each "$work/images" "${words[@]}"; done
    test_of bad_requests "$work/images" "$radoscls" 255 "${words[@]}"
    test_of random_calls "$work/images" - 6000 0 5 "${words[@]}"
}

# Plug-ins with a mistake each, of which a test fails for each.
try_wrong() {
    RADOSCLS=$radoscls "$here/wrong.sh" > "$work/wrong" 2>&1
    want "plug-ins with a mistake" $? 0
    grep '^ok   .*fails$\|^BAD' "$work/wrong"
}

# The classes of examples/ceph in place of Ceph's own, in a cluster of their own.
try_ports() {
    local images=${PORTS-}
    if [ -z "$images" ]; then
        images=$work/ports
        RADOSCLS=$radoscls "$here/ports.sh" images "$images" || stop_at "there are no images of examples/ceph"
    fi
    STORE=memstore timeout 1200 "$here/ports.sh" start "$ported" "$images" > "$work/log" 2>&1 || stop_at "no cluster for examples/ceph"
    CEPH_CONF=$ported/cluster/ceph.conf test_of ports "$images" "$ported/cluster/ceph.conf" 150
    want "daemons that failed an assertion" "$(grep -lE 'Caught signal|ceph_assert|suicide' "$ported"/cluster/log/*.log)" ""
    "$here/cluster.sh" stop "$ported/cluster"
}

# What radosbpf says on an OSD's machine, and what it leaves in the folder of classes.
try_install() {
    local name sum budget there=$work/there line
    install_of() { want "$1" "$(said radosbpf "${@:3}")" "$2"; }
    upgrade() { echo "$2" > "$work/upgraded" && mv -f "$work/upgraded" "$1"; }
    sum=$(sha256sum < "$here/classes/counter.img" | cut -c 1-64)
    cp "$work/images/lock.img" "$work/images/lock.2.img"
    for name in loops older; do cp "$work/loops/loops.img" "$work/images/$name.img"; done
    head -c 40 "$here/classes/lock.img" > "$work/cut.img"
    for name in "${natives[@]}"; do
        radosbpf install "$work/images/$name.img" > "$work/log" 2>&1 || stop_at "$name can't be installed"
    done
    rm "$work/images"/{lock.2,loops,older}.img
    want "the lines of a class of rule set 3" "$(sed '$d' "$work/log")" "$("$radoscls" verify "$work/images/third.img")"
    # As what installed it before there were budgets left it.
    rm "$folder/older.budget"
    want "installed" "$(radosbpf installed)" "$(for name in "${natives[@]}" counter; do
        case $name in counter) budget=5000 ;; *) budget=131072 ;; esac
        echo "$name $(sha256sum < "$folder/$name.img" | cut -c 1-64) $budget"
    done | LC_ALL=C sort)"
    install_of "a cut image" "1 refused: image refused after 0 methods: 1 Truncated" install "$work/cut.img"
    install_of "a class of Ceph's own" "1 refused: it would replace $folder/libcls_lock.so, a class of another's: \
--replace does so" install "$here/classes/lock.img"
    install_of "the plug-in's own name" "1 refused: bpf is no name for a class: 1 to 64 letters, digits and _ . -, \
and not bpf" install "$(cp "$here/classes/lock.img" "$work/bpf.img" && echo "$work/bpf.img")"
    install_of "no image's name" "1 refused: the image's file is called NAME.img, by the class's name" \
        install "$here/classes/lock.txt"
    install_of "a class that isn't installed" "1 refused: no class lock is installed in $folder" uninstall lock
    mkdir "$there"
    ln -s "$folder/libcls_lock.so" "$there"
    line=$(radosbpf install "$here/classes/lock.img" --dir "$there" --replace | head -n 1)
    want "replaced" "$line" "replaced $there/libcls_lock.so, a class of another's"
    want "the files" "$(ls -A "$there")" \
        "$(printf '%s\n' libcls_lock.so libcls_lock.so.replaced lock.budget lock.img sillarnica_engine.so)"
    install_of "uninstalled" "0 $there/libcls_lock.so is there again, uninstalled lock from $there" \
        uninstall lock --dir "$there"
    want "Ceph's own again" "$(readlink "$there/libcls_lock.so")" "$folder/libcls_lock.so"
    # An upgrade of Ceph puts its own class back over ours: once we install again, once not.
    radosbpf install "$here/classes/lock.img" --dir "$there" --replace > "$work/log"
    upgrade "$there/libcls_lock.so" newer
    line=$(radosbpf install "$here/classes/lock.img" --dir "$there" --replace | head -n 1)
    want "replaced again" "$line" "replaced $there/libcls_lock.so, a class of another's"
    want "the newer one is kept" "$(cat "$there/libcls_lock.so.replaced")" newer
    upgrade "$there/libcls_lock.so" newest
    install_of "uninstalled behind an upgrade" "0 $there/libcls_lock.so is another's already, uninstalled lock from $there" \
        uninstall lock --dir "$there"
    want "the newest one stays" "$(cat "$there/libcls_lock.so")" newest
    want "its files" "$(ls -A "$there")" "$(printf '%s\n' libcls_lock.so sillarnica_engine.so)"
    try_budget "$there"
    # What no OSD can open as a class, and has to survive.
    for name in cut none bpf.old; do cp "$folder/libcls_bpf.so" "$folder/libcls_$name.so"; done
    cp "$work/cut.img" "$folder"
    ln -s libcls_count.so "$folder/libcls_link.so"
    # Two that were installed: of one the image is replaced by another, whose budget is greater, of one the budget.
    for name in greater damaged; do
        cp "$work/loops/loops.img" "$work/$name.img"
        radosbpf install "$work/$name.img" > "$work/log" 2>&1 || stop_at "$name can't be installed"
    done
    sed 's/^.budget 131072/.budget 131073/' "$here/tests/loops.txt" > "$work/greater.txt"
    "$radoscls" asm "$work/greater.txt" "$folder/greater.img"
    echo many > "$folder/damaged.budget"
}

# try_budget FOLDER: what radosbpf says of budgets, and keeps beside an image.
try_budget() {
    local image=$work/loops/loops.img number kept=$1/loops.budget
    printf '.rules 3\n.method f r 0 0\nmov r0, 0\nja -1\n' > "$work/again.txt"
    "$radoscls" asm "$work/again.txt" "$work/again.img"
    install_of "a loop without a head" "1 refused: refused method 0 slot 1: 1 Backward" \
        install "$work/again.img" --dir "$1"
    install_of "a smaller budget than the image's" "1 refused: method fill declares a budget of 131072, over 131071: \
--budget 131072 allows it" install "$image" --dir "$1" --budget 131071
    for number in 0 1048577 -1 +5 05 5k ''; do
        want "$number is no budget" "$(said radosbpf install "$image" --dir "$1" --budget="$number" | cut -c 1)" 2
    done
    want "what a refusal leaves" "$(ls -A "$1")" "$(printf '%s\n' libcls_lock.so sillarnica_engine.so)"
    want "the lines of a class with loops" "$(radosbpf install "$image" --dir "$1" | sed '$d')" \
        "$("$radoscls" verify --loops "$image")"
    want "the usual budget" "$(cat "$kept")" 131072
    for number in 1048576 200000 131072; do
        want "installed anew, by $number" "$(radosbpf install "$image" --dir "$1" --budget $number | tail -n 1)" \
            "installed loops in $1, image $(sha256sum < "$image" | cut -c 1-64), budget $number"
        want "its budget" "$(cat "$kept")" $number
    done
    install_of "a smaller budget, over it" "1 refused: method fill declares a budget of 131072, over 5: \
--budget 131072 allows it" install "$image" --dir "$1" --budget 5
    want "the budget stays" "$(cat "$kept")" 131072
    echo 0 > "$kept"
    want "a file that keeps none" "$(radosbpf installed --dir "$1")" "loops $(sha256sum < "$image" | cut -c 1-64) -"
    radosbpf install "$image" --dir "$1" > "$work/log"
    want "it is made anew" "$(cat "$kept")" 131072
    install_of "uninstalled with its budget" "0 uninstalled loops from $1" uninstall loops --dir "$1"
    want "what is left of it" "$(ls -A "$1")" "$(printf '%s\n' libcls_lock.so sillarnica_engine.so)"
}

try_demo() {
    local shown
    shown=$(BUILT=$folder timeout 1200 "$here/demo.sh" 2>&1)
    want "the demo ends" $? 0
    want "its answers" "$(grep -E '^(installed|added|refused|the sum)' <<< "$shown" | sed 's/ in .*//' | tr '\n' ' ')" \
        "installed counter added 40 added 2 refused -1 refused -1 added 58 the sum is 100 "
}

# A class in an operation of other steps, and without waiting for it, as the pages of librados have it.
try_examples() {
    local embed=$top/examples/embed
    gcc -O2 -Wall -Wextra -Werror -o "$work/operation" "$embed/operation.c" -lrados ||
        stop_at "operation.c can't be compiled"
    want "operation.c" "$(said "$work/operation" bpf made.c)" \
        "0 the operation: 0, its call: 0, the last call: 8 bytes, the sum is 42"
    want "operation.c again" "$(said "$work/operation" bpf made.c | cut -d , -f 1)" "1 the operation: -17"
    want "operation.py" "$(said /usr/bin/python3 "$embed/operation.py" bpf made.py)" "0 the sum is 42"
    want "the data of both" "$(rados -p bpf get made.c - && rados -p bpf get made.py -)" "headerheader"
    want "their keys" "$(rados -p bpf listomapkeys made.c && rados -p bpf listomapkeys made.py)" $'n\nn'
}

# osd.2 may not open the plug-in at first: an OSD reads that list when it starts.
start_cluster() {
    LISTED="counter ${natives[*]} ${odd[*]}" EXTRA=$'[osd.2]\nosd class load list = lock' \
        timeout 1200 "$here/cluster.sh" start "$cluster" > "$work/log" 2>&1 || stop_at "no cluster"
}

# An object whose first OSD is osd.2.
object_of_two() {
    local name
    for name in {a..z}; do
        if ceph_within 60 osd map bpf "two$name" -f json | grep -q '"acting_primary": *2[,}]'; then
            echo "two$name"
            return
        fi
    done
}

# bpf WHAT WANTED WORDS: what radosbpf says to the words, after its status.
bpf() { want "$1" "$(said radosbpf -p bpf "${@:3}")" "$2"; }

# What docs/CEPH.md shows, of a pool `bpf` and a namespace `tenant`: the words behind these.
on_page() {
    local line
    line=$(sed -n "s/^    $1 //p" "$top/docs/CEPH.md")
    line=${line//POOL/bpf}
    echo "${line//TENANT/tenant}"
}

caps_of() { ceph_within 60 auth get "$1" | grep caps; }

# How many classes osd.2 lacks. On a slow machine it may be down for a moment, and then it isn't asked.
lacking() { timeout 300 radosbpf check bpf 2> /dev/null | grep -c "^osd.2 class .* isn't there"; }
all_lacking() { [ "$(lacking)" = $((${#natives[@]} + ${#odd[@]} - 1)) ]; } # the link is none

# The list of classes and the caps are those of docs/CEPH.md, by its own commands.
try_rights() {
    local object words number lock=$here/classes/lock.img
    local no_right="1 refused -1: no right to call it, or the OSD's osd_class_load_list lacks bpf"
    object=$(object_of_two)
    bpf "osd_class_load_list without bpf" "$no_right" load "$object" lock "$lock"
    sed -i '/^\[osd.2\]$/,$d; /^osd class load list/d' "$CEPH_CONF"
    eval "timeout 120 ceph config set osd osd_class_load_list $(on_page 'ceph config set osd osd_class_load_list')"
    want "the list" "$(ceph_within 60 config get osd osd_class_load_list)" \
        "$(ceph-osd --show-config-value osd_class_load_list -c /dev/null) counter bpf"
    "$here/cluster.sh" kill "$cluster" 2
    "$here/cluster.sh" osd "$cluster" 2
    await 600 is_clean
    await 600 all_asked
    bpf "with bpf on it" "0 " load "$object" lock "$lock"
    bpf "an image in a request" "1 refused -95: the OSD has no class bpf, or no such method of it: those for classes \
that are sent are off unless asked for" call "$object" @"$lock" lock --input 6d65
    await 300 all_lacking
    want "the check finds what osd.2 lacks" "$(lacking)" $((${#natives[@]} + ${#odd[@]} - 1))
    touch "$folder/bpf.sent"
    ceph_within 60 config set osd osd_class_load_list \
        "$(ceph_within 60 config get osd osd_class_load_list) ${natives[*]} ${odd[*]}"
    for number in 0 1 2; do
        "$here/cluster.sh" kill "$cluster" $number
        "$here/cluster.sh" osd "$cluster" $number
    done
    await 600 is_clean
    words=$(on_page 'ceph auth get-or-create client.tenant')
    eval "ceph_within 60 auth get-or-create client.page $words" > "$work/page.keyring"
    want "caps of the page" "$(caps_of client.page)" "$(caps_of client.tenant)"
    ceph_within 60 osd erasure-code-profile set coded k=2 m=1 crush-failure-domain=osd
    ceph_within 60 osd pool create coded 1 1 erasure coded
    ceph_within 60 osd pool application enable coded rados
    await 600 is_clean
    words=$(on_page 'ceph auth get-or-create client.adder')
    eval "ceph_within 60 auth get-or-create client.adder $words" > "$work/adder.keyring"
    test_of rights "$work/images" "$CEPH_CONF" client.page "$work/page.keyring"
}

# What the OSDs say of the files in the folder, in their logs.
try_opened() {
    local log=$cluster/log/osd.0.log name line number
    for line in "class counter is opened, image $(sha256sum < "$here/classes/counter.img" | cut -c 1-64), budget 5000" \
        "class older is opened, image $(sha256sum < "$work/loops/loops.img" | cut -c 1-64), budget 131072" \
        "class greater is refused: method 0 declares a budget of 131073, over the class's of 131072" \
        "class damaged is refused: $folder/damaged.budget has no number from 1 to 1048576" \
        "class cut is refused: image refused after 0 methods: 1 Truncated" \
        "class none is refused: there is no image $folder/none.img" \
        "class bpf.old is refused: there is no image $folder/bpf.old.img" \
        "class count is opened under another name, or a second time"; do
        want "the log says: $line" "$(grep -cF "bpf: $line" "$log" | sed 's/^[1-9].*/yes/')" yes
    done
    want "calls in the log" "$(grep -c 'counter.add' "$log")" 0
    want "stats" "$(radosbpf -p bpf stats o | head -n 1)" "class method calls refusals steps nanoseconds edit_bytes"
    want "stats for Prometheus" "$(radosbpf -p bpf stats o --prometheus | grep -cE \
        '^sillarnica_calls_total\{osd="[012]",class="counter",method="(add|get)"\} [0-9]+$')" 2
    want "check" "$(radosbpf check bpf)" "$(for number in 0 1 2; do
        for name in bpf.old cut damaged greater none; do
            echo "osd.$number class $name is refused: the OSD's log says why"
        done
    done | sort -k 3,3 -s; echo "3 OSDs asked: they differ")"
}

try_command() {
    local bad_class=$work/bad.img
    head -c 40 "$here/classes/lock.img" > "$bad_class"
    cd "$here/classes" || exit 1
    bpf "load" "0 " load o lock lock.img
    bpf "list" "0 lock 1015" list o
    bpf "verify" "0 break ok 19, lock ok 52, unlock ok 50" verify lock.img
    want "verify, as radoscls does it" "$(radosbpf -p bpf verify lock.img)" "$("$radoscls" verify lock.img)"
    bpf "verify, refused" "1 image refused after 0 methods: 1 Truncated" verify "$bad_class"
    bpf "verify, a class with loops" "1 refused method 0 slot 23: 1 Backward, it has loops, which installed classes \
alone may have: radosbpf install verifies it with them" verify "$work/loops/loops.img"
    bpf "call" "0 code -61, output -, steps 10" call o lock break
    bpf "call, with an image" "0 code -2, output -, steps 10, object absent" call new @lock.img break --show
    bpf "call, as a read" "1 refused -30: the call changes the object, and was asked to read alone" \
        call o lock lock --input 6d65 --read
    bpf "call, no such method" "1 refused -38: the class has no such method" call o lock none
    bpf "an owner that is too long" "1 refused -90: the input is longer than the method takes" \
        call o lock lock --input "$(printf '%0130d' 0)"
    bpf "in a namespace" "0 code 0, output -, steps 21, object 0 1 0, data -, xattr lock 6d65" \
        -N tenant call new @lock.img lock --input 6d65 --show
    bpf "in another" "0 code -2, output -, steps 10" -N other call new @lock.img break
    bpf "a class for a tenant" "0 " -N tenant load new lock lock.img
    bpf "a tenant" "0 code -16, output -, steps 19" -N tenant -n client.tenant call new lock lock --input 796f75
    bpf "a tenant's image" "1 refused -1: no right to call it, or the OSD's osd_class_load_list lacks bpf" \
        -N tenant -n client.tenant call new @lock.img lock --input 796f75
    bpf "a tenant who may read nothing else" "1 code 0, output -, steps 43, refused -1: no right to call it, or the \
OSD's osd_class_load_list lacks bpf" -N tenant -n client.tenant call new lock lock --input 6d65 --show
    bpf "load, refused" "1 refused -8: the class is refused: radosbpf verify says why" load o bad "$bad_class"
    bpf "unload" "0 " unload o lock
    bpf "unloaded" "1 refused -61: no class of that name is loaded beside the object" call o lock lock
    bpf "no such file" "1 cannot read: none.img: No such file or directory" verify none.img
    want "no such pool" "$(said radosbpf -p none list o)" "3 radosbpf: pool none: No such file or directory"
    want "no such command" "$(said radosbpf -p bpf nothing | cut -c 1)" 2
    want "input that is no hex" "$(said radosbpf -p bpf call o lock lock --input 0g | cut -c 1)" 2
    want "help" "$(said radosbpf --help | cut -c 1-15)" "0 usage: radosb"
    cd "$here" || exit 1
}

# Random calls and counters, while two OSDs are lost one after the other and come back. A class gets another budget
# before that, which these two take when they are started.
try_lost() {
    local calls counters number
    radosbpf install "$work/loops/loops.img" --budget 200000 > "$work/log" 2>&1 || stop_at "loops can't be installed"
    timeout 7200 python3 "$here/tests/random_calls.py" "$work/images" "$radoscls" 2000 45 "${SEED:-1}" \
        cluster "$CEPH_CONF" > "$work/calls" 2>&1 &
    calls=$!
    timeout 7200 python3 "$here/tests/counters.py" "$CEPH_CONF" "$top/examples/count.img" 4 20 4000 45 \
        > "$work/counters" 2>&1 &
    counters=$!
    for number in 1 0; do
        sleep 3
        "$here/cluster.sh" kill "$cluster" "$number"
        sleep 10
        "$here/cluster.sh" osd "$cluster" "$number"
        await 600 is_clean || echo "     the groups aren't clean yet"
    done
    wait $calls
    want "random calls end" $? 0
    wait $counters
    want "counters end" $? 0
    tail -n 25 "$work/calls" "$work/counters" | cut -c 1-600
    await 600 all_asked
    want "the check tells budgets apart" "$(radosbpf check bpf | grep budget)" \
        "osd.2 class loops has the budget 131072, others have 200000"
}

# All OSDs are lost at once: what was answered is there.
try_all_lost() {
    local number
    bpf "a lock before" "0 code 0, output -, steps 21" call kept @"$here/classes/lock.img" lock --input 6d65
    for number in 0 1 2; do "$here/cluster.sh" kill "$cluster" "$number"; done
    for number in 0 1 2; do "$here/cluster.sh" osd "$cluster" "$number"; done
    await 600 is_clean
    bpf "it is there after all OSDs were lost" "0 code -16, output -, steps 19" \
        call kept @"$here/classes/lock.img" lock --input 796f75
}

scrubbed() { grep -oE ' 1\.[0-9a-f]+ deep-scrub (ok|.*error.*)' "$cluster/log/cluster.log" | sort -u; }
all_scrubbed() { [ "$(scrubbed | wc -l)" -ge 16 ]; }

try_scrub() {
    await 600 is_clean
    ceph_within 60 osd deep-scrub all > /dev/null
    await 600 all_scrubbed
    want "deep scrub of all 16 groups" "$(scrubbed | grep -c 'deep-scrub ok')" 16
    want "inconsistent groups" "$(timeout 120 rados list-inconsistent-pg bpf)" "[]"
    want "daemons that failed an assertion" "$(grep -lE 'Caught signal|ceph_assert|suicide' "$cluster"/log/*.log)" ""
}

# Without a manager some of `ceph`'s commands are never answered.
try_no_manager() {
    kill "$(awk '$1 == "mgr" { print $2 }' "$cluster/pids")"
    sleep 1
    timeout 5 ceph pg stat > "$work/log" 2>&1
    want "a command without a manager ends by its limit" $? 124
    bpf "calls go on" "0 code -16, output -, steps 19" call kept @"$here/classes/lock.img" lock --input 796f75
}

try_end() {
    local left=0 id
    "$here/cluster.sh" stop "$cluster"
    while read -r _ id; do
        if grep -qzF "$cluster" "/proc/$id/cmdline" 2> /dev/null; then left=$((left + 1)); fi
    done < "$cluster/pids"
    want "processes that are left" $left 0
}

[ "$(id -u)" = 0 ] || stop_at "it wants to be root"
[ -x "$radoscls" ] || stop_at "there is no $radoscls"
[ -f "$SILLARNICA_ARCHIVE" ] || stop_at "there is no $SILLARNICA_ARCHIVE"
for step in install_packages make_images try_build install_package try_stand_in try_wrong try_demo try_ports try_install; do
    $step
done
for step in start_cluster try_rights try_command; do
    $step
done
test_of native "$work/images" cluster "$CEPH_CONF" client.adder "$work/adder.keyring"
test_of loops "$work/loops" cluster "$CEPH_CONF"
try_opened
for each in refusals lock limits rounds; do test_of $each "$work/images" cluster "$CEPH_CONF"; done
test_of operations "$CEPH_CONF"
try_examples
test_of commits "$here/classes" "$CEPH_CONF"
timeout 120 ceph osd pool rm coded coded --yes-i-really-really-mean-it > "$work/log" 2>&1
test_of bad_requests "$work/images" - 2 cluster "$CEPH_CONF"
for step in try_lost try_all_lost try_scrub try_no_manager try_end; do
    $step
done
echo "     in $SECONDS seconds"
finish $bad

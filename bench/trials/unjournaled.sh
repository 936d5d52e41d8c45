#!/bin/sh
# Tests the advice of GUIDE about a `format` that is refused with S1 (Device) on file systems without a
# journal. The file system is mounted again, and the `format` is run again. From then on, everything that
# is answered `ok` has to survive a power cut.
#
#     bench/trials/unjournaled.sh PROGRAM FOLDER [LIBRARY [FS..]]
#
# FS is vfat, exfat and ext2. Each sync of the `format` fails in turn, with all writes of the device, which
# then heals. A cut is a copy of what was written to the device. The script also prints what happens
# without mounting again, and doesn't judge it. It needs root, dmsetup, strace, mkfs of each FS, and a
# kernel with loop devices, dm-flakey and FS; if one of them is missing, the part that needs it is left
# out, and a line reports this. The shell may be busybox's. If the kernel has none of these, the script can
# run in a guest; DELAY is then the number of microseconds that a slow guest takes to exchange a table.
set -u
program=$(realpath "$1")
library=$(realpath "${3:-$(dirname "$0")/../../crates/cases/data/strong.so}")
mkdir -p "$2" && cd "$2" || exit 2
[ $# -lt 3 ] && shift 2 || shift 3
PATH=$PATH:/usr/sbin:/sbin
name=rlibreg-$$ loop='' wrong=0 tried=0
disk=mounted/disk

skipped() {
    echo "skipped: $1"
    exit 0
}
[ "$(id -u)" = 0 ] || skipped 'all of it: wants root'
for tool in dmsetup strace losetup blockdev; do
    command -v $tool > /dev/null || skipped "all of it: there is no $tool"
done
dmsetup targets 2> /dev/null | grep -q flakey || modprobe dm_flakey 2> /dev/null
dmsetup targets 2> /dev/null | grep -q flakey || skipped 'all of it: the kernel has no dm-flakey'

# table TARGET WORD..: sets how the device behaves from now on.
table() {
    target=$1
    shift
    dmsetup suspend --noflush --nolockfs "$name"
    dmsetup load "$name" --table "0 $size $target $loop 0 $*" && dmsetup resume "$name"
}

up() {
    truncate -s 16M image
    loop=$(losetup -f) && losetup "$loop" image || return 1
    size=$(blockdev --getsz "$loop")
    dmsetup create "$name" --table "0 $size linear $loop 0" && dmsetup mknodes
    "mkfs.$1" "/dev/mapper/$name" > made 2>&1 && mkdir -p mounted cut && mount_it "$1" 2>> made
}
mount_it() {
    mount -t "$1" "/dev/mapper/$name" mounted
}
down() {
    umount mounted 2> /dev/null
    dmsetup remove "$name" 2> /dev/null
    losetup -d "$loop" 2> /dev/null
    rm -f image copy
}

# Runs a `format` whose sync of a given number fails, and prints its answer.
failing_format() {
    rm -f trace
    strace -e trace=fsync -e "inject=fsync:delay_enter=${DELAY:-2000000}:when=$1" -o trace \
        "$program" format $disk 256 > reply 2>&1 &
    until [ "$(grep -c 'fsync.*= 0' trace 2> /dev/null)" -ge $(($1 - 1)) ] 2> /dev/null; do
        kill -0 $! 2> /dev/null || break
        sleep 0.1
    done
    sleep 0.3
    table flakey 0 3600 1 error_writes
    wait $!
    table linear
    cat reply
}

# Prints the listing of the disk that a power cut leaves, from a copy of the device.
after_a_cut() {
    cp image copy
    other=$(losetup -f) && losetup "$other" copy
    if mount -t "$1" "$other" cut; then
        if [ -e cut/disk ]; then "$program" list cut/disk 2>&1 | tr '\n' ' '; else echo 'no DISK'; fi
        umount cut
    fi
    losetup -d "$other"
}

# one FS SYNC WAY: tries a `format` whose sync number SYNC fails. Succeeds if there is such a sync.
one() {
    up "$1" || return 1
    first=$(failing_format "$2")
    [ "$3" = kept ] || { umount mounted && mount_it "$1"; }
    second=$("$program" format $disk 256 2>&1)
    change=$("$program" install $disk "$library" 2>&1)
    found=$(after_a_cut "$1")
    down
    [ "$first" = 'refused S1 Device' ] || return 1
    told="$1, sync $2 of format fails, $3: again '$second', install '$change', after a cut '$found'"
    if [ "$3" = kept ]; then
        echo "  $told"
        return 0
    fi
    tried=$((tried + 1))
    case "$second/$change/$found" in
    "ok/ok/library "* | "refused S4 AlreadyFormatted/ok/library "*) echo "  $told" ;;
    *) wrong=$((wrong + 1)) && echo "WRONG: $told" ;;
    esac
}

for fs in ${*:-vfat exfat ext2}; do
    if ! up $fs; then
        down
        echo "skipped: $fs: none can be made and mounted: $(tail -n 1 made)"
        continue
    fi
    down
    sync=1
    while one $fs $sync kept && one $fs $sync 'mounted anew'; do sync=$((sync + 1)); done
    [ $sync -gt 1 ] || { wrong=$((wrong + 1)) && echo "WRONG: $fs: no sync of a format fails"; }
done
echo "unjournaled: $tried looked at, $wrong wrong"
[ $wrong = 0 ]

#!/usr/bin/env bash
# partitions.sh BUILT [RELEASE [CUTS]] tries the section "Partitions" of docs/DEVICES.md with what
# c/build.sh has put into BUILT, with the commands exactly as the page has them. It does so in a Debian
# (RELEASE is bookworm) that systemd and udev run in a guest of qemu, with a disk of partitions, and over a
# loop device of this machine.
#
# - Units and rule are checked by systemd's own checkers, as far as RELEASE has them.
# - On a loop device with direct I/O, the same commands write the same bytes as to a file.
# - With two such devices, rlibreg-switch switches to and fro, and is killed with everything that it has
#   started, at 40 random moments. The link then leads to the old state or to the new one, and the same
#   switch succeeds.
# - In the guest, the script checks the node's group and mode; the service that waits, the service that
#   starts, and the kept image of the latter; the switch; growing, also after a switch was cut; and the
#   way back to the shorter partition.
# - A program that the initramfs starts, and a first process, run from a registry on a partition.
# - The same is tried over dm-verity. With a changed byte, or with another root hash, nothing
#   starts.
# - The power fails CUTS times (5) while rlibreg-switch goes to and fro: the link leads to one of the two
#   partitions, whose registry is whole, and the next switch succeeds.
#
# The script needs root, debootstrap, qemu-system-x86, fdisk, e2fsprogs and gcc, and loads some 250
# MB from a mirror of Debian. ACCEL is qemu's -accel.
set -eu
built=$(cd "$1" && pwd)
PATH=$built:$PATH
release=${2:-bookworm} cuts=${3:-5}
cd "$(dirname "$0")/../.."
room=$(mktemp -d)
page=$PWD/docs/DEVICES.md switch=$PWD/c/rlibreg-switch loop= loops=()
. bench/trials/guest.sh
mkdir "$room/made"
trap 'ended=$?; [ -z "$guest" ] || kill "$guest" || true
    for loop in $loop "${loops[@]}"; do losetup -d "$loop"; done
    rm -rf "$room"; exit $ended' EXIT

# Two libraries of one name, a program that prints their text, and a program that is the first process.
programs() {
    local object='gcc -O1 -fPIC -nostdlib -fno-stack-protector -Wl,--hash-style=sysv -I c/tests/programs'
    for number in one other; do
        echo "const char *greeting(void) { return \"rlibreg: $number\\n\"; }" > "$room/$number.c"
        $object "$room/$number.c" -shared -Wl,-soname,libgreeting.so -o "$room/made/lib$number.so"
    done
    cat > "$room/program.c" << 'END'
#include "start.h"
const char *greeting(void);
void begin(uint64_t *stack, uint64_t at_end) {
    (void)stack, (void)at_end;
    say(greeting());
#ifdef FIRST
    if (kernel(39, 0, 0, 0) == 1) say("rlibreg: the first process\n");
    kernel(162, 0, 0, 0);                                      /* sync */
    kernel(169, (long)0xfee1dead, 672274793, 0x4321fedc);      /* reboot: power off */
#endif
    leave(0);
}
END
    $object "$room/program.c" "$room/made/libone.so" -pie -Wl,-e,_start -o "$room/made/program"
    $object -DFIRST "$room/program.c" "$room/made/libone.so" -pie -Wl,-e,_start -o "$room/made/first"
}

# Runs the page's commands for a loop device, and checks that the same commands write the same bytes
# to a file.
over_a_loop_device() {
    cd "$room/made"
    eval "$(of Partitions 'fallocate')"
    [ "$(losetup -nO DIO "$loop" | tr -d ' ')" = 1 ] || failed 'the loop device has no direct I/O'
    rlibreg format "$loop" 8192
    rlibreg install "$loop" libone.so
    rlibreg format same 8192
    rlibreg install same libone.so
    cmp same "$loop"
    rlibreg-run "$loop" ./program
    losetup -d "$loop"
    loop=
    rm file same
    cd - > /dev/null
    echo 'a loop device: as written, with direct I/O'
}

# A switch of two loop devices that is killed, and is then run again.
killed_over_loop_devices() {
    local number name before after wanted began took=0 moment reached=0
    cd "$room/made"
    for number in 0 1; do
        eval "$(of Partitions 'fallocate')"
        loops+=("$loop") loop=
        mv file disk-$number
        rlibreg format "${loops[number]}" 8192 > said
    done
    rlibreg install "${loops[0]}" libone.so > said
    ln -s "${loops[0]}" link
    for number in {0..40}; do
        name=libother.so
        [ $((number % 2)) = 1 ] || name=libone.so
        printf 'replace %s\ncommit\n' "$(od -An -v -tx1 $name | tr -d ' \n')" > changes
        wanted=$(sha256sum < $name | cut -d ' ' -f 1)
        before=$(rlibreg-tool digest link | cut -d ' ' -f 1)
        moment=$(awk "BEGIN {print 0.01 + 1.2 * $took * $RANDOM / 32768}")
        { timeout -s KILL "$moment" "$switch" --link "$PWD/link" "${loops[@]}" < changes > said || true; } 2> said
        after=$(rlibreg-tool digest link | cut -d ' ' -f 1)
        [ "$after" = "$before" ] || [ "$after" = "$wanted" ] || failed "a killed switch leaves $after"
        [ "$after" = "$before" ] || reached=$((reached + 1))
        began=$EPOCHREALTIME
        "$switch" --link "$PWD/link" "${loops[@]}" < changes > said
        after=$(rlibreg-tool digest link | cut -d ' ' -f 1)
        [ "$after" = "$wanted" ] || failed "a switch after a kill leaves $after"
        took=$(awk "BEGIN {print $EPOCHREALTIME - $began}")
    done
    for loop in "${loops[@]}"; do losetup -d "$loop"; done
    loops=() loop=
    rm disk-0 disk-1 link changes said
    cd - > /dev/null
    echo "two loop devices: 40 switches that were killed, of which $reached had been made, and each again"
}

# A Debian with the installed files, and with everything else that the guest needs.
prepare() {
    debian systemd,systemd-sysv,cryptsetup-bin,e2fsprogs
    cp "$room/made/program" "$room/made/first" "$root/usr/bin/"
    cp "$room"/made/*.so "$root/try/"
    chroot "$root" systemd-sysusers
    echo /usr/bin/program > "$root/etc/rlibreg/initramfs"
    initramfs
}

# systemd's own checkers.
checkers() {
    local said
    said=$(chroot "$root" systemd-analyze verify --man=no rlibreg-disk.service \
        rlibreg@usr-bin-program.service 2>&1) && [ -z "$said" ] || failed "systemd-analyze: $said"
    if chroot "$root" udevadm verify --help > /dev/null 2>&1; then
        chroot "$root" udevadm verify --no-summary /usr/lib/udev/rules.d/61-rlibreg.rules
        echo 'the units and the rule: nothing is said of them'
    else
        echo "the units: nothing is said of them (left out: the rule, since $release has no udevadm verify)"
    fi
}

# The steps of the guest on its first day, with the commands of docs/DEVICES.md, and during its cuts.
scripts() {
    {
        cat << 'END'
#!/bin/bash
set -eEu
trap 'echo "rlibreg: failed: $BASH_COMMAND"; journalctl -b -o cat -u "rlibreg*" | tail -n 20; poweroff -f' ERR
cd /try
udevadm settle
END
        of Partitions 'a=/dev'
        cat << 'END'
echo "rlibreg: the node is $(stat -Lc '%U:%G %a' $a)"
rlibreg install $a libone.so
END
        echo 'start() {'
        of Partitions 'systemctl start'
        cat << 'END'
    while systemctl is-active -q 'rlibreg@*'; do sleep 0.1; done
    journalctl --sync
}
start
start
journalctl -b -o cat -u 'rlibreg*' | grep '^library\|^rlibreg: one'
find /var/cache/rlibreg -type f -printf 'rlibreg: kept by %u in %h\n'
printf 'replace %s\ncommit\n' $(od -An -v -tx1 libother.so | tr -d ' \n') > changes
END
        of Partitions 'rlibreg-switch $a'
        cat << 'END'
start
journalctl -b -o cat -u 'rlibreg*' | grep '^rlibreg: other'
END
        of Partitions 'veritysetup format' | sed 's/$/ > tree/'
        cat << 'END'
sed -n 's/^Root hash:[[:space:]]*/rlibreg: roothash=/p' tree
END
        of Partitions 'c=/dev' | sed '$d'
        cat << 'END'
rlibreg-switch --resize $b $c sh -c 'kill -9 $PPID' || echo 'rlibreg: a switch is cut'
END
        of Partitions 'c=/dev' | tail -n 1
        cat << 'END'
echo "rlibreg: there are $(rlibreg-tool info /etc/rlibreg/disk | sed -n 's/^sectors //p') sectors"
rlibreg-tool dump $b | cmp - <(rlibreg-tool dump $c)
start
rlibreg-switch --resize $c $a < changes
echo 'rlibreg: the day is over'
poweroff -f
END
    } > "$root/try/day.sh"
    {
        cat << 'END'
#!/bin/bash
set -eEu
trap 'echo "rlibreg: failed: $BASH_COMMAND"' ERR
cd /try
echo "rlibreg: the link names $(readlink /etc/rlibreg/disk)"
rlibreg list /etc/rlibreg/disk
rlibreg-run /etc/rlibreg/disk /usr/bin/program
echo 'rlibreg: to and fro'
while :; do
END
        of Partitions 'a=/dev' | head -n 1
        of Partitions 'rlibreg-switch $a'
        printf 'echo "rlibreg: switched"\ndone\n'
    } > "$root/try/cuts.sh"
    chmod 755 "$root/try/day.sh" "$root/try/cuts.sh"
    cat > "$root/etc/systemd/system/day.service" << 'END'
[Unit]
After=local-fs.target systemd-udev-trigger.service
[Service]
ExecStart=/try/day.sh
StandardOutput=tty
StandardError=tty
TTYPath=/dev/ttyS0
[Install]
WantedBy=multi-user.target
END
    chroot "$root" systemctl enable -q day.service
    chroot "$root" systemctl mask -q serial-getty@ttyS0.service
    rm -f "$root/etc/rlibreg/disk"
}

programs
over_a_loop_device
killed_over_loop_devices
prepare
checkers
scripts
partitions 'size=4M, name=rlibreg_a' 'size=8M, name=rlibreg_c' 'size=4M, name=rlibreg_b' \
    'size=1M, name=rlibreg_hashes' # later a byte of the text is changed at its last place, which is in rlibreg_b
boot
ended
said 'the node is root:rlibreg 640' '^library libgreeting.so' '^rlibreg: one' '^rlibreg: other' \
    'kept by rlibreg in /var/cache/rlibreg/usr-bin-program' 'roothash=' 'a switch is cut' \
    'there are 16384 sectors' 'the day is over'
echo 'systemd, the switch, growing: as written'
hash=$(sed -n 's/^rlibreg: roothash=//p' "$room/said")

node=/dev/disk/by-partlabel/rlibreg_b
boot "rlibreg.disk=$node init=/usr/bin/rlibreg-run -- $node /usr/bin/first"
ended
[ "$(grep -c '^rlibreg: other' "$room/said")" = 2 ] || failed 'two programs are to be started'
said 'the first process'
echo 'a program of the initramfs, and the first process: started from a partition'
verity="rlibreg.disk=$node rlibreg.hashes=/dev/disk/by-partlabel/rlibreg_hashes"
first="init=/usr/bin/rlibreg-run -- /dev/mapper/rlibreg /usr/bin/first"
boot "$verity rlibreg.roothash=$hash $first"
ended
[ "$(grep -c '^rlibreg: other' "$room/said")" = 2 ] || failed 'two programs are to be started'
said 'the first process'
boot "$verity rlibreg.roothash=${hash//[0-7]/8} $first"
ended
said '/usr/bin/program ended with status 126'
! grep -q 'other$\|first process' "$room/said" || failed 'another root hash starts programs'
cp --sparse=always "$disk" "$room/whole"
at=$(grep -obUa 'rlibreg: other' "$disk" | tail -n 1 | cut -d: -f1)
printf X | dd of="$disk" bs=1 seek="$at" conv=notrunc status=none
boot "$verity rlibreg.roothash=$hash $first"
ended
said '/usr/bin/program ended with status 126'
! grep -q 'other$\|Xlibreg\|first process' "$room/said" || failed 'a changed byte is started'
mv "$room/whole" "$disk"
echo 'dm-verity: the same, and nothing of a changed byte or under another root hash'

switches=0
for ((i = 0; i <= cuts; i++)); do
    boot init=/try/cuts.sh
    if [ "$i" -lt "$cuts" ]; then begun 'to and fro'; else begun 'rlibreg: switched'; fi
    power_cut 3
    said 'the link names /dev/disk/by-partlabel/rlibreg_[ab]$' '^library libgreeting.so' '^rlibreg: other'
    ! grep 'rlibreg: failed' "$room/said" || failed "it doesn't go on"
    switches=$((switches + $(grep -c '^rlibreg: switched' "$room/said" || true)))
done
said '^rlibreg: switched'
echo "$cuts power cuts, $switches switches: the link is whole, and so is what it names"

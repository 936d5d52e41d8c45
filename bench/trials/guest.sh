# guest.sh is read by scripts that run as root and test documents in a Debian under qemu. These scripts have
# set `room`, a folder of their own; `built`, which has what c/build.sh has made; `release`; and `page`, the
# document. They need debootstrap, qemu-system-x86, fdisk and e2fsprogs. ACCEL is qemu's -accel, and
# PATIENCE is the number of seconds that a guest may take (1,800).
. bench/trials/page.sh
root=$room/root disk=$room/disk.img guest=

failed() {
    echo "${0##*/}: $1" >&2
    tail -n 40 "$room/console" >&2 || true
    exit 1
}

# of SECTION FIRST: prints the page's commands.
of() {
    commands "$page" "$1" "$2" || failed "${page##*/} has no commands that begin with $2"
}

# debian PACKAGES MODULE..: makes a Debian with these packages and kernel modules, and with the installed
# files.
debian() {
    local wanted=udev,initramfs-tools,linux-image-amd64,busybox,zstd,$1
    debootstrap --variant=minbase --include="$wanted" "$release" "$root" > "$room/log" 2>&1 ||
        { tail "$room/log" >&2; exit 1; }
    DESTDIR=$root PYTHONDIR=/usr/lib/python3/dist-packages c/install.sh /usr "$built"
    mkdir -p "$root/try" "$root/etc/rlibreg"
    printf 'MODULES=list\nCOMPRESSLEVEL=1\n' > "$root/etc/initramfs-tools/conf.d/small"
    printf '%s\n' virtio_pci virtio_blk ext4 "${@:2}" > "$root/etc/initramfs-tools/modules"
}

# initramfs: makes the initramfs of that Debian, and copies it and the kernel out of it.
initramfs() {
    chroot "$root" sh -c 'mkinitramfs -o /boot/initramfs "$(ls /lib/modules)"'
    mv "$root"/boot/vmlinuz-* "$room/kernel"
    mv "$root/boot/initramfs" "$room/initramfs"
    rm -rf "$root"/boot/* "$root"/usr/lib/modules/* "$root"/var/cache/apt "$root"/var/lib/apt/lists
}

# partitions PARTITION..: makes a disk with the root and these partitions, as sfdisk takes them.
partitions() {
    local size
    size=$(($(du -sm "$root" | cut -f1) + 150))
    truncate -s $((size + 40))M "$disk"
    printf '%s\n' 'label: gpt' "size=${size}M, name=root" "$@" | sfdisk -q "$disk"
    mke2fs -q -t ext4 -d "$root" -E offset=$((1 << 20)) "$disk" ${size}M
}

# boot [WORD]..: boots with these words at the end of the kernel's command line. The console's lines are
# in a file.
boot() {
    : > "$room/console" # otherwise `begun` may find a line of an earlier guest
    qemu-system-x86_64 -accel "${ACCEL:-tcg}" -m 1024 -nographic -no-reboot -kernel "$room/kernel" \
        -initrd "$room/initramfs" -drive "file=$disk,format=raw,if=virtio,cache=writeback" \
        -netdev user,id=net -device virtio-net-pci,netdev=net,romfile= -append \
        "root=PARTLABEL=root rw console=ttyS0 no_timer_check panic=1 quiet $*" > "$room/console" 2>&1 < /dev/null &
    guest=$!
}

# begun TEXT: waits until the guest prints TEXT or ends.
begun() {
    timeout "${PATIENCE:-1800}" sh -c \
        "until grep -aq '$1' '$room/console' || ! kill -0 $guest 2> /dev/null; do sleep 0.2; done" ||
        failed 'the guest goes on'
}

# power_cut SECONDS: cuts the guest's power after a random time of at most about SECONDS seconds.
power_cut() {
    sleep "$((RANDOM % $1)).$((RANDOM % 10))"
    kill -9 $guest || true
    wait $guest 2> /dev/null || true # otherwise bash prints that the guest was killed
    ended
}

# ended: waits for the end of the guest. The output of the guest is kept without the console's own
# signs, and without the firmware's last line, which may not have ended.
ended() {
    timeout "${PATIENCE:-1800}" tail --pid=$guest -f /dev/null || failed 'the guest goes on'
    wait $guest || true
    guest=
    tr -d '\r' < "$room/console" | sed 's/\x1b[^A-Za-z]*[A-Za-z]//g; s/^Booting from ROM\.*//' |
        grep -a '^rlibreg\|^library' > "$room/said" || true
}

# said LINE..: checks that the console has each of these lines, and otherwise ends the script.
said() {
    local line
    for line; do grep -aq "$line" "$room/said" || failed "the guest didn't say: $line"; done
}

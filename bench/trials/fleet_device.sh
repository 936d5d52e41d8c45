#!/bin/bash
# fleet_device.sh is the first process of fleet.sh's guest. If the kernel's command line has
# `fleet.way=day`, it tries all ways and ends. If `fleet.way` is one way, it updates in that way from
# version to version until the power fails. /try has a script for each way, the sums of the versions, and
# two images.
set -u
exec 2>&1
export PATH=/usr/sbin:/usr/bin:/sbin:/bin LC_ALL=C HOME=/var/fleet
word() {
    sed -n "s/.*fleet\.$1=\([a-z0-9]*\).*/\1/p" /proc/cmdline
}
server=http://10.0.2.2:$(word port)
a=/dev/disk/by-partlabel/rlibreg_a b=/dev/disk/by-partlabel/rlibreg_b
repository=/var/ostree

failed() {
    echo "rlibreg: failed: $1"
    tail -n 20 said service
    sync
    busybox poweroff -f
}

# runs WAY NUMBER [FOLDER]: brings the device to this version in this way, from a folder of the server.
runs() {
    url=$server${3:-} number=$2 bash -euo pipefail "/try/$1" > said 2>&1
}

# Prints the version of the registry, or nothing.
version() {
    local number sum
    sum=$(rlibreg-tool dump /etc/rlibreg/disk | sha256sum)
    for number in 1 2 3 4; do
        [ "$sum" != "$(cat /try/sum-$number)" ] || echo $number
    done
}

# forgets NUMBER: removes all versions from OSTree's repository except this one.
forgets() {
    ostree --repo=$repository refs --list | grep -v ":v$1$" |
        xargs -rn 1 ostree --repo=$repository refs --delete
    ostree --repo=$repository prune --refs-only
} > said

# begins WAY NUMBER: sets the device up with this version.
begins() {
    forgets none
    dd if=/try/image-"$2" of=$a conv=fsync status=none
    rlibreg format $b "$(blockdev --getsz $b)" || [ $? = 1 ] # the disk has a registry already
    ln -sfn $a /etc/rlibreg/disk
    [ "$1" != ostree ] || runs ostree "$2" || failed "$1 doesn't begin"
    [ "$(version)" = "$2" ] || failed "$1 doesn't begin with $2"
}

# reaches WAY: brings the device to version 4. Runs the way `list` as often as necessary, and any other
# way once.
reaches() {
    local at
    while at=$(version) && [ "$at" != 4 ]; do
        runs "$1" 4 || return 1
        [ "$1" = list ] || break
    done
    [ "$(version)" = 4 ]
}

# refuses WAY FOLDER: tries an update from this folder of the server, which has to leave the device as it
# is.
refuses() {
    local before
    before=$(readlink /etc/rlibreg/disk)
    ! runs "$1" 4 "/$2" || failed "$1 takes what $2 is"
    echo "rlibreg: $1, $2: $(tail -n 1 said)"
    [ "$(version)" = 3 ] && [ "$(readlink /etc/rlibreg/disk)" = "$before" ] || failed "$1, $2: changed"
}

day() {
    local way number folder
    for way in casync rauc ostree list; do
        for number in 3 1; do
            begins $way $number
            curl -sS $server/begin?$way-$number > /dev/null
            reaches $way || failed "$way from $number"
            curl -sS $server/end > /dev/null
        done
        begins $way 3
        for folder in cut bad other; do refuses $way $folder; done
        [ $way != list ] || refuses list lost
        reaches $way || failed "$way doesn't go on"
    done
    echo 'rlibreg: the day is over'
    sync
    busybox poweroff -f
}

over_and_over() {
    local at
    [ -e "begun-$1" ] || { begins "$1" 1 && touch "begun-$1" && sync; }
    at=$(version)
    [ -n "$at" ] || failed 'this is none of the versions'
    echo "rlibreg: at $at"
    echo 'rlibreg: begun'
    [ "$1" = list ] || runs "$1" "$at" && [ "$(version)" = "$at" ] || failed "$1 to $at once more"
    while :; do
        at=$((at % 4 + 1))
        runs "$1" $at || failed "$1 to $at"
        echo "rlibreg: at $at, gone on"
        [ "$1" != ostree ] || forgets $at
    done
}

mkdir -p /var/fleet /var/registry /run/dbus
cd /var/fleet
net=$(ls /sys/class/net | grep -v lo)
ip link set lo up
ip link set "$net" up
ip addr add 10.0.2.15/24 dev "$net"
[ -d $repository ] || ostree --repo=$repository init --mode=bare
ostree --repo=$repository remote add --if-not-exists --gpg-import=/etc/rlibreg/keys.gpg fleet "$server/ostree" > said
dbus-uuidgen --ensure
dbus-daemon --system --fork
way=$(word way)
if [ "$way" = day ]; then day; else over_and_over "$way"; fi

#!/usr/bin/env bash
# fleet.sh BUILT [RELEASE [CUTS]] tries the section "Fleets" of docs/DEVICES.md with what c/build.sh has
# put into BUILT: in a Debian (RELEASE is bookworm) in a guest of qemu, with its casync, OSTree and RAUC,
# and with the commands exactly as the page has them. A server on this machine has four versions of a
# registry, each with one new library of 34 KB, and counts the bytes that it sends.
#
# - Each way brings a device to version 4 from version 3, and from version 1.
# - Nothing changes after a transfer that breaks, a transfer with a changed bit, a transfer that was
#   signed by another key, and a list after which a program can't be bound. Afterwards the way still
#   works.
# - The power fails CUTS times (3) in each way, over and over: afterwards the device has the version that
#   it had reached, or the next. Then every way except `list` is run again for the version that was
#   found, and each way goes on to the next versions.
#
# The script needs root, debootstrap, qemu-system-x86, fdisk, e2fsprogs, gcc and python3 (3.9 or later),
# and loads some 300 MB from a mirror of Debian. ACCEL is qemu's -accel.
set -eu
built=$(cd "$1" && pwd)
release=${2:-bookworm} cuts=${3:-3}
cd "$(dirname "$0")/../.."
room=$(mktemp -d)
page=$PWD/docs/DEVICES.md server=
. bench/trials/guest.sh
trap 'ended=$?; [ -z "$guest" ] || kill "$guest" || true; [ -z "$server" ] || kill "$server" || true
    umount "$root/proc" 2> /dev/null || true; rm -rf "$room"; exit $ended' EXIT

# Makes 100 libraries whose bytes can't be compressed, three of them also in a second version, and a
# program that needs one library.
libraries() {
    local number name
    mkdir -p "$room/www/libraries" "$room/bytes"
    python3 -c 'import pathlib, random, sys
for number in map(int, sys.argv[2:]):
    pathlib.Path(sys.argv[1], str(number)).write_bytes(random.Random(number).randbytes(30000))' \
        "$room/bytes" {1..100} 200 300 400
    for number in {1..100} 200 300 400; do
        name=l$number
        [ $number -le 100 ] || name=l$((number / 10))
        printf '.section .rodata\n.globl %s\n%s: .incbin "%s"\n' $name $name "$room/bytes/$number" \
            > "$room/library.s"
        gcc -shared -nostdlib -Wl,--hash-style=sysv,--build-id=none,-z,noseparate-code,-soname,lib$name.so \
            -o "$room/www/libraries/$number" "$room/library.s"
    done
    gcc -shared -nostdlib -Wl,--hash-style=sysv,--no-as-needed -o "$room/www/program" "$room/www/libraries/7"
}

# ways: writes a script for each way. `url` is the server's folder, `number` the requested version.
ways() {
    local ways=$root/try disks image switch list
    disks=$(of Partitions 'a=/dev' | head -n 1)
    image=$(of Fleets 'url/sum -O')
    switch=$(of Fleets '--as-is $a')
    list=$(of Fleets ' before')
    cat > "$ways/casync" << END
$disks url=\$url/\$number
$image
END
    cat > "$ways/rauc" << END
$disks
END
    cat >> "$ways/rauc" << 'END'
curl -sSfo bundle $url/$number/bundle
live=$(rlibreg-switch --which $a $b)
pkill -x rauc && sleep 1
rauc --override-boot-slot=${live##*_} service > service 2>&1 &
until rauc status > /dev/null 2>&1; do sleep 0.2; done
rauc install bundle
END
    cat > "$ways/backend" << END
#!/bin/bash
set -eu
$disks
live=\$(rlibreg-switch --which \$a \$b)
case \$1 in
    get-primary) echo \${live##*_} ;;
    get-state) echo good ;;
    set-primary)
        [ \${live##*_} = \$2 ] ||
            $switch
        ;;
esac
END
    cat > "$ways/ostree" << END
new=/var/registry/\$number/disk
[ ! /etc/rlibreg/disk -ef \$new ] || exit 0 # the next lines would remove the live registry
# Without the commit before its delta, OSTree would also load the whole file.
for only in --commit-metadata-only ''; do
    ostree --repo=/var/ostree pull --url=\$url/ostree \$only fleet v\$number
done
rm -rf /var/registry/\$number
ostree --repo=/var/ostree checkout -H --fsync=true fleet:v\$number /var/registry/\$number
$(of Fleets '$new')
END
    cat > "$ways/list" << END
url=\$url/lists
$list
END
    chmod 755 "$ways/backend"
    of Fleets 'dump image' > "$ways/sign"
}

# rauc_knows: writes RAUC's configuration, with its slots and the program that switches between them.
rauc_knows() {
    mkdir -p "$root/etc/rauc"
    rm "$root/usr/share/dbus-1/system-services/de.pengutronix.rauc.service" # otherwise dbus starts RAUC
    cat > "$root/etc/rauc/system.conf" << 'END'
[system]
compatible=device
bootloader=custom
bundle-formats=verity
statusfile=/var/fleet/status
[handlers]
bootloader-custom-backend=/try/backend
[keyring]
path=/etc/rauc/keys.pem
[slot.registry.0]
device=/dev/disk/by-partlabel/rlibreg_a
type=raw
bootname=a
[slot.registry.1]
device=/dev/disk/by-partlabel/rlibreg_b
type=raw
bootname=b
END
}

# made: makes the server's files, inside that Debian.
made() {
    libraries
    mv "$room/www" "$root/www"
    mount -t proc proc "$root/proc"
    install -m 755 bench/trials/fleet_made.sh bench/trials/fleet_device.sh "$root/try/"
    env -i PATH=/usr/sbin:/usr/bin HOME=/ chroot "$root" bash /try/fleet_made.sh
    umount "$root/proc"
    mv "$root/www" "$room/www"
}

# at: prints the versions that the guest has reported. A line that a cut has broken doesn't count.
at() {
    sed -n 's/^rlibreg: at \([1-4]\).*/\1/p' "$room/said"
}

# counted: prints the amount that the server sent between `begin` and `end`, in KB.
counted() {
    awk '$1 ~ /^\/begin/ {way = substr($1, 8); sum = 0; next} $1 == "/end" {printf "%s: %d KB\n", way, sum / 1000}
        {sum += $2}' "$room/log"
}

debian casync,ostree,rauc,rauc-service,squashfs-tools,curl,ca-certificates,gpg,gpg-agent,gpgv,openssl,dbus,iproute2,procps \
    virtio_net loop squashfs dm_verity sha256_generic
rauc_knows
ways
made
initramfs
rm -f "$root/etc/rlibreg/disk"
partitions 'size=4M, name=rlibreg_a' 'size=4M, name=rlibreg_b'
for name in begin end; do echo > "$room/www/$name"; done
python3 bench/trials/served.py "$room/www" "$room/log" > "$room/port" &
server=$!
until [ -s "$room/port" ]; do sleep 0.1; done
start="init=/try/fleet_device.sh fleet.port=$(cat "$room/port")"

boot "$start fleet.way=day"
ended
said 'the day is over'
sed -n 's/^rlibreg: \(.*, .*\)/\1/p' "$room/said"
counted

for way in casync rauc ostree list; do
    reached=1 versions=0
    for ((i = 0; i <= cuts; i++)); do
        boot "$start fleet.way=$way"
        if [ "$i" -lt "$cuts" ]; then begun 'rlibreg: begun'; else begun 'rlibreg: .*, gone on'; fi
        power_cut 30
        said 'rlibreg: begun'
        ! grep 'rlibreg: failed' "$room/said" || failed "$way: it doesn't go on"
        found=$(at | head -n 1)
        [ "$found" = "$reached" ] || [ "$found" = $((reached % 4 + 1)) ] ||
            failed "$way: version $found is found, and $reached was reached"
        reached=$(at | tail -n 1) versions=$((versions + $(at | wc -l) - 1))
    done
    said 'gone on'
    echo "$way: $cuts power cuts, $versions versions reached, the last is $reached"
done

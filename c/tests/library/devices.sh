# Tests on block devices: a loop device, and a partition of it.

skipped() {
    echo "devices: $1: no block device is tried"
    exit 0
}
[ "$(id -u)" = 0 ] || skipped 'only root makes loop devices'
truncate -s 1M image
device=$(losetup -f --show image 2> lost) || skipped "there is no loop device ($(cat lost))"
trap 'losetup -d "$device"' EXIT

busy="tool: $(error_text 16)
= 9"
held='tool: the file is locked
= 9'
want 'no registry' 'refused S3 NotFormatted
= 1' "$(ended ./tool list "$device")"
for command in ./tool "$rlibreg"; do
    want 'another length' 'refused S6 BadGeometry
= 1' "$(ended $command format "$device" 2047)"
done
want 'its own length' 'ok
= 0' "$(ended ./tool format "$device" 2048)"
want 'a registry' 'refused S4 AlreadyFormatted
= 1' "$(ended ./tool format "$device" 2048)"
want 'a change' ok "$(./tool install "$device" "$data/strong.so")"
want 'a listing by the program' 'library b 376
end' "$("$rlibreg" list "$device")"
want 'a change by the program' ok "$("$rlibreg" remove "$device" b)"
want 'a listing after it' end "$(./tool list "$device")"

# Readers share the lock; a change tries again for two seconds.
held_by ./tool hold list "$device"
want 'a list beside a list' 'end
= 0' "$(ended ./tool list "$device")"
began=${EPOCHREALTIME/[.,]/}
want 'a change beside a list' "$held" "$(ended ./tool install "$device" "$data/strong.so")"
took=$(((${EPOCHREALTIME/[.,]/} - began) / 100000))
[ $took -ge 19 ] && [ $took -lt 60 ] || { echo "it took $took tenths of a second" >&2; exit 1; }
let_go
flock -s "$device" sleep 0.5 &
sleep 0.1
want 'a change after a moment' 'ok
= 0' "$(ended ./tool install "$device" "$data/strong.so")"
wait

# A read-only device.
trap 'blockdev --setrw "$device"; losetup -d "$device"' EXIT
blockdev --setro "$device"
want 'a list of what may only be read' 'library b 376
end
= 0' "$(ended ./tool list "$device")"
want 'a change of what may only be read' 'tool: Read-only file system
= 9' "$(ended ./tool remove "$device" b)"
blockdev --setrw "$device"

if ! addpart "$device" 1 64 1024 2> lost || ! [ -b "${device}p1" ]; then
    echo "devices: a loop device: as wanted; there is no partition of it ($(cat lost))"
    exit 0
fi
part=${device}p1
trap 'delpart "$device" 1; losetup -d "$device"' EXIT
want 'a registry on a partition' ok "$(./tool format "$part" 1024)"
held_by ./tool hold install "$part" "$data/strong.so"
want 'a change of the disk of a partition in use' "$busy" \
    "$(ended ./tool remove "$device" b)"
want 'a list of that disk' 'library b 376
end
= 0' "$(ended ./tool list "$device")"
let_go
want 'a listing of the partition' 'library b 376
end' "$("$rlibreg" list "$part")"
echo 'devices: a loop device and a partition of it: as wanted'

# Tests a file with holes on a full file system in memory. There a read of a hole through a map
# would end a process. The library answers as the program does, and the file stays unchanged.

skipped() {
    echo "full: $1: a full file system in memory is not tried"
    exit 0
}
[ "$(id -u)" = 0 ] || skipped 'only root mounts one'
mkdir full
mount -t tmpfs -o size=1M none full 2> lost || skipped "none is mounted ($(cat lost))"
trap 'umount full' EXIT
for command in "$rlibreg" ./tool; do
    truncate -s 32768 full/disk
    dd if=/dev/zero of=full/rest bs=4096 status=none 2> lost || true
    want "no registry is made" "refused S1 Device" "$($command format full/disk 64 || true)"
    want 'its blocks' 0 "$(stat -c %b full/disk)"
    want 'its bytes' "$(head -c 32768 /dev/zero | md5sum)" "$(md5sum < full/disk)"
    rm full/rest
    want 'one is made' 'ok
= 0' "$(ended $command format full/disk 64)"
    want 'it is one' 'end
= 0' "$(ended $command list full/disk)"
    rm full/disk
done
echo 'full: a file of holes on a full file system is refused, and stays'

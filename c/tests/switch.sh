# Tests rlibreg-switch over two files: refusals, two switches at once, signals, and cuts at each step. The
# script and each of its commands are killed before and after each command, and in a model the power fails
# there. In the model the medium has the synced bytes of a disk and the synced link, and none or any part of
# the rest.

mkdir switch
cd switch
export ROOM=$PWD
lines() {
    printf '%s %s\n' "$1" "$(od -An -v -tx1 "$2" | tr -d ' \n')"
}
# digest FILE..: prints the output of `rlibreg-tool digest` for a registry of these libraries. The first
# is named `b`, and the second `a`.
digest() {
    local names=(b a) at
    for ((at = 1; at <= $#; at++)); do
        printf '%s  %s\n' "$(sha256sum < "${!at}" | cut -d ' ' -f 1)" "${names[at - 1]}"
    done
}
{ lines replace "$data/protected.so" && echo commit; } > first
{ lines install "$data/long.so" && echo commit; } > second
old=$(digest "$data/strong.so")
new=$(digest "$data/protected.so")
both=$(digest "$data/protected.so" "$data/long.so")

# The tests run a copy of the script that lies beside the programs, and may shorten the wait of this
# copy.
mkdir bin steps start
sed 's/^readonly patience=10 /readonly patience=${PATIENCE:-10} /' "$here/../programs/rlibreg-switch" > bin/rlibreg-switch
want 'its patience' 1 "$(grep -c '^readonly patience=${PATIENCE:-10} ' bin/rlibreg-switch)"
chmod +x bin/rlibreg-switch
ln "$(realpath "$rlibreg")" bin/rlibreg 2> lost || cp "$rlibreg" bin/rlibreg
ln "$built/rlibreg-tool" bin/rlibreg-tool 2> lost || cp "$built/rlibreg-tool" bin/rlibreg-tool
tool=$PWD/bin/rlibreg-tool
change() {
    bin/rlibreg-switch --link "$PWD/disk" "$@"
}

# start: makes the link lead to `one`; `two` has an older registry, in the same sectors.
{ cat "$data/strong.so" && echo older; } > older.so
older=$(digest older.so)
"$rlibreg" format start/one 64 > said
"$rlibreg" install start/one "$data/strong.so" > said
"$rlibreg" format start/two 64 > said
"$rlibreg" install start/two older.so > said
start() {
    cp start/one start/two .
    ln -sfT "$PWD/one" disk
    rm -f .disk.rlibreg-switch
}
# leads WHAT DISK DIGEST: checks that the link leads to this disk, with a registry of these libraries.
leads() {
    want "where the link leads $1" "$PWD/$2" "$(readlink disk)"
    want "the registry $1" "$3" "$("$tool" digest disk)"
    want "the other link $1" '' "$(find . -maxdepth 1 -name '.disk*')"
}

# Switches to and fro.
start
ln -s nowhere .disk.rlibreg-switch
want 'a switch' 'planned
ok
= 0' "$(ended change one two < first)"
leads 'after a switch' two "$new"
cmp one start/one
want 'one more' 'planned
ok
= 0' "$(ended change one two < second)"
leads 'after the second' one "$both"
want 'the live one' "$PWD/one" "$(change --which two one)"
want 'a third, by the words in the other order' "hello from $PWD/two
ok
= 0" "$(ended change two one sh -c 'echo "hello from $RLIBREG_OTHER" && rlibreg-tool remove "$RLIBREG_OTHER" a > /dev/null')"
leads 'after the third' two "$new"

# refused STATUS MESSAGE WORD..: checks that a switch is refused in this way, and that neither disk nor
# the link changes.
refused() {
    local status=$1 message=$2
    shift 2
    sha256sum one two > before
    readlink disk >> before
    want "what is said of ${*: -2}" "rlibreg-switch: $message
= $status" "$(ended change "$@" < first)"
    { sha256sum one two && readlink disk; } | cmp - before
    want 'the other link' '' "$(find . -maxdepth 1 -name '.disk*')"
}
still="rlibreg-switch: $PWD/disk still leads to $PWD/one"
start
ln -s one alias
ln two hard
ln -s disk chain
"$rlibreg" format short 63 > said
head -c 32768 /dev/zero > zeros
"$rlibreg" format third 64 > said
refused 1 "$PWD/one and $PWD/alias are the same disk" one alias
refused 1 "$PWD/two and $PWD/hard are the same disk" two hard
refused 1 "$PWD/disk leads neither to $PWD/two nor to $PWD/third" two third
refused 1 "$PWD/nothing is neither a block device nor a file" one nothing
refused 1 "$PWD/bin is neither a block device nor a file" bin two
refused 1 "$PWD/one is no symbolic link" --link one one two
refused 3 "there is no folder $PWD/none/" --link none/disk one two
refused 1 "$PWD/one has 32768 bytes, and $PWD/short has 32256: use --resize
$still" one short
refused 1 "$PWD/zeros holds no registry, and may hold something else: rlibreg format makes one there
$still" one zeros
cmp zeros <(head -c 32768 /dev/zero)
want 'a link to the link' "$PWD/one" "$(bin/rlibreg-switch --link chain --which one two)"
for words in '' one '--link' '--wrong one two' '--as-is one two true' '--which one two true'; do
    want "the words $words" 2 "$(ended change $words 2>&1 < first | sed -n 's/^= //p')"
done
want 'the usage' 'usage: rlibreg-switch [OPTION].. A B < LINES            changes the other disk by rlibreg-tool update' \
    "$(bin/rlibreg-switch --help | head -n 1)"

# A folder that may not be written.
mkdir fixed
ln -s "$PWD/one" fixed/disk
if [ "$(id -u)" != 0 ]; then
    chmod 555 fixed
elif mount --bind fixed fixed 2> lost; then
    trap 'umount "$ROOM/fixed"' EXIT
    mount -o remount,bind,ro fixed
else
    echo "skipped: a folder that is read-only ($(cat lost))"
fi
if ! touch fixed/probe 2> lost; then
    want 'a folder that is read-only' "rlibreg-switch: no link can be made in $PWD/fixed/
rlibreg-switch: $PWD/fixed/disk still leads to $PWD/one
= 3" "$(ended bin/rlibreg-switch --link fixed/disk one two < first | grep -v '^ln: ')"
    cmp two start/two
fi

# stays STATUS WHAT WORD..: checks that a failure of standard input or of a command changes neither
# the link nor the disk to which it leads.
stays() {
    want "the status of $2" "$1" "$(ended change "${@:3}" 2>&1 | sed -n 's/^= //p')"
    leads "after $2" one "$old"
    cmp one start/one
}
sed '$d' first | stays 1 'lines without a commit' one two
head -c 300 first | stays 1 'a line that was cut' one two
printf 'commit' | stays 1 'a commit that was cut' one two
stays 1 'no lines' one two < /dev/null
{ lines install "$data/strong.so" && echo commit; } | stays 1 'a refused line' one two
stays 3 'a disk as its own lines' one two < two
stays 1 'a command that fails' one two false
stays 1 'a command that is not there' one two ./nothing
stays 1 'a command that ruins a library' one two sh -c \
    'dd if=/dev/zero of="$RLIBREG_OTHER" bs=512 seek=2 count=30 conv=notrunc status=none'
stays 1 'a command that makes it no registry' one two sh -c \
    'dd if=/dev/zero of="$RLIBREG_OTHER" bs=512 count=2 conv=notrunc status=none'
"$rlibreg" format two 64 > said 2>&1
stays 1 'a program that is not bound' --bind "$data/program-1.so" --as-is one two
want 'a program that is bound' 'planned
ok
= 0' "$(ended change --bind "$data/program-1.so" one two < first)"
leads 'after that' two "$new"

# Other lengths, to and fro; and a switch to a disk without a new copy. A copy that is cut leaves no
# registry, so such a switch refuses the disk.
start
"$rlibreg" format large 128 > said
want 'growing' 'planned
ok' "$(change --resize one large < first)"
leads 'after growing' large "$new"
want 'its sectors' 'sectors 128' "$("$tool" info disk | grep sectors)"
want 'the way back' 'planned
ok' "$(change --resize one large < second)"
leads 'after the way back' one "$both"
"$rlibreg" format small 8 > said
want 'too small a disk' 1 "$(ended change --resize one small < second 2>&1 | sed -n 's/^= //p')"
leads 'beside too small a disk' one "$both"
start
want 'as it is' 'ok
= 0' "$(ended change --as-is one two)"
leads 'after that' two "$older"
start
printf '%-512s' rlibreg-switch | dd of=two conv=notrunc status=none
stays 1 'a copy that was cut' --as-is one two

# Two switches at once: the second waits, finds that the first has switched, and switches back.
start
mkfifo begun
change one two sh -c 'echo > begun; sleep 0.3; rlibreg-tool update "$RLIBREG_OTHER" < first' > waited &
read -r < begun
want 'a change of the live one meanwhile' "tool: the file is locked
= 9" "$(ended ../tool install disk "$data/long.so")"
want 'a listing meanwhile' 'library b 376
end' "$("$rlibreg" list disk)"
want 'a second switch' 'planned
ok
= 0' "$(ended change one two < second)"
wait $!
leads 'after both' one "$both"
want 'a change after it' ok "$("$rlibreg" remove disk a)"
# A change that waits for the live disk is made to the new one.
start
change one two sh -c 'echo > begun; sleep 0.3; rlibreg-tool update "$RLIBREG_OTHER" < first' > waited &
switching=$!
read -r < begun
../tool wait install disk "$data/long.so" > waits &
sleep 0.1
want 'a change that waits' '' "$(cat waits)"
wait $switching
wait $!
want 'after it has waited' ok "$(cat waits)"
leads 'after that change' two "$both"
cmp one start/one
# locked WHAT STATUS: runs a switch while another process has a lock.
locked() {
    want "what is said beside $1" "$2" "$(PATIENCE=0.2 ended change one two < first 2>&1 | grep -v still)"
    let_go
}
start
held_by flock . cat
locked 'another switch' "rlibreg-switch: $PWD/ is locked by another process: lslocks prints which
= 3"
held_by flock one cat
locked 'a change of the live one' "rlibreg-switch: $PWD/one is locked by another process: lslocks prints which
= 3"
held_by flock -s two cat
locked 'a reader of the other one' "rlibreg-switch: $PWD/two can't be changed: it is in use, or a call of it failed
= 3"
cmp two start/two
leads 'after these' one "$old"

# Signals; and a kill of the script only, after which its command goes on.
for signal in HUP:129 INT:130 TERM:143 KILL:137; do
    start
    setsid env --default-signal=HUP,INT,TERM bin/rlibreg-switch --link disk one two \
        sh -c 'echo > begun; sleep 0.5; echo "$RLIBREG_OTHER" > went' 2> told &
    read -r < begun
    kill -"${signal%:*}" $!
    status=0
    wait $! 2> lost || status=$?
    want "the status after ${signal%:*}" "${signal#*:}" $status
    want "the link after ${signal%:*}" "$PWD/one" "$(readlink disk)"
    cmp one start/one
    if [ "${signal%:*}" = KILL ]; then
        want 'the command has not ended' '' "$(cat went 2> lost)"
        flock -n . true && { echo 'the command has no lock' >&2; exit 1; }
    else
        want 'what the command has done by then' "$PWD/two" "$(cat went)"
        want 'what is said then' "rlibreg-switch: $PWD/disk still leads to $PWD/one" "$(cat told)"
        want 'the other link then' '' "$(find . -maxdepth 1 -name '.disk*')"
    fi
    want "a switch after ${signal%:*}" 'planned
ok
= 0' "$(ended change one two < first)"
    want 'the command' "$PWD/two" "$(cat went)"
    leads "after ${signal%:*}" two "$new"
    rm went
done
rm begun

# Cuts. A step is a command of the script that locks, writes or syncs. The folder `steps` has
# stand-ins for these commands: they count the steps, and kill all processes after the step of one
# number, or halfway through a copy or `ln`.
cat > steps/step << 'END'
#!/bin/sh
name=${0##*/}
PATH=${PATH#"$ROOM/steps:"}
number=0
{
    "$ROOM/real/flock" 8 # the two sides of a pipe begin at once
    echo "$name $*" >> "$ROOM/count"
    while read -r line; do number=$((number + 1)); done < "$ROOM/count"
} 8> "$ROOM/counting"
if [ "$CUT" = "half:$number" ] && [ "$name" = dd ]; then
    cp two whole
    "$ROOM/real/$name" "$@" of="$ROOM/whole" # the last `of` counts
    for at in $HALF; do
        dd if=whole of=two bs=512 skip="$at" seek="$at" count=1 conv=notrunc status=none
    done
    kill -9 0
elif [ "$CUT" = "half:$number" ]; then
    for made; do :; done
    rm -f "$made" # like an ln that first removes the old link
    kill -9 0
fi
status=0
"$ROOM/real/$name" "$@" || status=$?
[ "$CUT" != model ] || "$ROOM/steps/model" "$name" "$@"
[ "$CUT" != "after:$number" ] || kill -9 0
exit $status
END
# The model: looks at the files that a power cut would leave, and then writes to `medium` what the step
# has synced.
cat > steps/model << 'END'
#!/bin/bash
set -eu
step=$*
cd "$ROOM"
# keeps LINK ONE TWO: checks that the link leads to one of the two disks, whose registry is the old or
# the new one.
keeps() {
    local found
    case $1 in */one) found=$2 ;; *) found=$3 ;; esac
    cp "$found" looked-at # the switch has the lock
    found=$(real/rlibreg-tool digest looked-at 2>&1) || true
    [ "$found" = "$OLD" ] || [ "$found" = "$NEW" ] || echo "in $step: $1: $found" >> wrong
}
# looks LINK: tries media that have some of the unsynced sectors of each disk.
looks() {
    local disk sectors
    keeps "$1" one two
    keeps "$1" medium/one medium/two
    cmp -s one medium/one && cmp -s two medium/two && return
    for sectors in '0 1 3 4' '2' '0' '1' '1 2 3 4 5 6 7'; do
        for disk in one two; do
            cp medium/$disk mixed-$disk
            for at in $sectors; do
                dd if=$disk of=mixed-$disk bs=512 skip=$at seek=$at count=1 conv=notrunc status=none
            done
        done
        keeps "$1" mixed-one mixed-two
    done
}
for word; do
    case $word in of=*) ! flock -ns "${word#of=}" true || echo "in $step: it is not locked" >> wrong ;; esac
done
looks "$(readlink disk)"
[ "$(readlink disk)" = "$(readlink medium/disk)" ] || looks "$(readlink medium/disk)"
case $step in
    dd*fsync* | 'rlibreg-tool update'* | 'rlibreg format'*) cp one two medium/ ;; # one is written
    sync*one | sync*two) cp "${step#sync }" medium/ ;;
    sync*/) cp -PT disk medium/disk ;;
esac
echo "$step" >> modelled
END
chmod +x steps/step steps/model
cp bin/rlibreg-switch steps/
mkdir real
for command in flock sync ln dd mv rlibreg rlibreg-tool; do
    ln -s step steps/$command
    ln -s "$(PATH=$PWD/bin:$PATH type -P $command)" real/$command
done
export OLD=$old NEW=$new CUT HALF
# stepped CUT WORD..: runs a switch with the stand-ins, in a process group of its own; its status is 137
# if it was cut.
stepped() {
    CUT=$1
    : > count
    status=0
    { setsid --wait steps/rlibreg-switch --link "$PWD/disk" "${@:2}" < first > said 2> told || status=$?; } 2> lost
}
# again WORD..: checks that a cut leaves the old state or the new one, that the same switch then leaves
# the new state, and that a further change of this state succeeds. Each state of the files is tried once.
again() {
    local found
    flock . flock one flock two true # once all that was killed has ended
    found=$(bin/rlibreg-tool digest disk)
    [ "$found" = "$old" ] || want "after a cut by $CUT" "$new" "$found"
    found=$(bin/rlibreg-tool digest two 2>&1) || true # a copy that was cut is no registry
    case $found in "$older" | "$old" | "$new" | '' | *refused*) ;; *) want "the other after $CUT" none "$found" ;; esac
    found=$(cat one two | cksum) found+=$(readlink disk .disk.rlibreg-switch || true)
    [[ $states != *"($found)"* ]] || return 0
    states+="($found)"
    want "done again after $CUT" 0 "$(change "$@" < first > said 2> told; echo $?)"
    want "the state after $CUT and the same again" "$new" "$(bin/rlibreg-tool digest disk)"
    want "another change after $CUT" 0 "$(change "$@" < second > said 2> told; echo $?)"
    want "the state after $CUT and another change" "$both" "$(bin/rlibreg-tool digest disk)"
}
# way WORD..: tries all cuts of such a switch between the disks `one` and `two`.
cuts=0
way() {
    local number steps halves
    start
    stepped none "$@"
    want 'with no cut' 0 $status
    mapfile -t steps < count
    states=
    for ((number = 1; number <= ${#steps[@]}; number++)); do
        start
        stepped after:$number "$@"
        want "the status of a cut after ${steps[number - 1]}" 137 $status
        again "$@"
        cuts=$((cuts + 1))
        case ${steps[number - 1]} in
            dd*of=*/two*) halves=('0 1 3 4' '2') ;; # sector 2 has the library, 3 its entry, 4 the catalogue
            ln*) halves=('') ;;
            *) continue ;;
        esac
        for HALF in "${halves[@]}"; do
            start
            stepped half:$number "$@"
            want "the status of a cut within ${steps[number - 1]}" 137 $status
            again "$@"
            cuts=$((cuts + 1))
        done
    done
}
way one two
mv start/two start/two.equal
"$rlibreg" format start/two 128 > said
way --resize one two
mv start/two.equal start/two

# The power fails in the model, even if the link was changed just before and the medium doesn't have the
# change: then `one` is written, as `two`.
start
mkdir medium
cp -P one two disk medium/
: > modelled
stepped model one two
want 'in the model' 0 $status
want 'what a power cut leaves' '' "$(cat wrong 2> lost || true)"
want 'the link on the medium' "$PWD/two" "$(readlink medium/disk)"
want 'the registry on the medium' "$new" "$(bin/rlibreg-tool digest medium/two)"
cp two image
start
cp -P one two disk medium/
stepped model one two sh -c 'cp image "$RLIBREG_OTHER"' # which isn't synced
want 'in the model, by a command' 0 $status
want 'what a power cut leaves then' '' "$(cat wrong 2> lost || true)"
want 'the registry of a command on the medium' "$new" "$(bin/rlibreg-tool digest medium/two)"
start
cp one medium/one
cp two medium/two
cp -P disk medium/disk
ln -sfT "$PWD/two" disk
cp one two # the link of an earlier switch leads to `two`, and after a power cut to `one` again
cp one medium/two
stepped model one two
want 'in the model, over a link that is not on the medium' 0 $status
want 'what a power cut leaves then' '' "$(cat wrong 2> lost || true)"
want 'the link on the medium then' "$PWD/one" "$(readlink medium/disk)"
[ $cuts -ge 40 ] || { echo "there were only $cuts cuts" >&2; exit 1; }
echo "switch: $cuts cuts, and power cuts in a model at $(wc -l < modelled) steps: old or new, and done again"

# Block devices. A second node of the live device, and a second loop device over its file, are the live
# one.
if [ "$(id -u)" != 0 ]; then
    echo 'skipped: a switch of block devices, which only root makes'
    exit 0
fi
loops=()
trap 'for loop in "${loops[@]}"; do losetup -d "$loop"; done; umount "$ROOM/fixed" 2> lost || true' EXIT
for file in one two one; do
    [ -e image-$file ] || truncate -s 1M image-$file
    loops+=("$(losetup -f --show image-$file 2> lost)") || { echo "skipped: block devices ($(cat lost))"; exit 0; }
done
mknod node b $(stat -c '0x%t 0x%T' "${loops[0]}")
for loop in "${loops[@]:0:2}"; do "$rlibreg" format "$loop" 2048 > said; done
"$rlibreg" install "${loops[0]}" "$data/strong.so" > said
ln -sfT "${loops[0]}" disk
for again in "$PWD/node" "${loops[2]}"; do
    want "the live one as $again" "rlibreg-switch: ${loops[0]} and $again are the same disk
= 1" "$(ended change "${loops[0]}" "$again" < first)"
done
want 'a device and a file' "rlibreg-switch: ${loops[0]} is a block device, and $PWD/two is a file
rlibreg-switch: $PWD/disk still leads to ${loops[0]}
= 1" "$(ended change "${loops[0]}" two < first)"
want 'a switch of devices' ok "$(change "${loops[@]:0:2}" < first | tail -n 1)"
want 'where the link leads' "${loops[1]}" "$(readlink disk)"
want 'the way back' ok "$(change "${loops[@]:0:2}" < second | tail -n 1)"
want 'where it leads then' "${loops[0]} $both" "$(readlink disk) $("$tool" digest disk)"
if addpart "${loops[1]}" 1 64 1024 2> lost; then
    want 'a partition of the other' "rlibreg-switch: one of ${loops[1]} and ${loops[1]}p1 is a partition of the other
= 1" "$(ln -sfT "${loops[1]}" disk && ended change "${loops[1]}" "${loops[1]}p1" < first | grep -v still)"
    delpart "${loops[1]}" 1
fi
echo 'switch: two loop devices to and fro, and other names of one'

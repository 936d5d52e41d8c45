# Tests starts from kept images (-c): when an image is used, and when it isn't. The programs are those of
# gcc's usual linker. ./run-kept is the loader with a clock that is ten seconds ahead, so that to it no
# file was changed just now.

programs=$here/programs
compile='gcc -O1 -fPIC -nostdlib -fno-stack-protector -fno-asynchronous-unwind-tables'
compile="$compile -Wl,--hash-style=sysv"
$compile -shared -Wl,-soname,libone.so -o libone.so "$programs/one.c"
$compile -shared -Wl,-soname,libtwo.so -o libtwo.so "$programs/two.c" libone.so
for name in words place both; do
    $compile -pie -Wl,-e,_start -o $name "$programs/$name.c" 2> warned
done
$compile -pie -Wl,-e,_start -o chain "$programs/chain.c" libtwo.so libone.so
# disk_of FILE: makes a disk with the libraries, each time by the same commands.
disk_of() {
    ./tool format "$1" 512 > /dev/null
    for name in one two; do ./tool install "$1" lib$name.so > /dev/null; done
}
rm -f disk
disk_of disk
mkdir -m 700 kept

# start WHAT SAID WANTED WORD..: checks the message about the image (SAID), and then the output and the
# status (WANTED).
start() {
    want "$1" "$(printf '%s\n' "$2" | sed 's/^/rlibreg-run: kept: /')
$3" "$(ended ${by:-./run-kept} -v -c kept "${@:4}")"
}
keeps=$'\nthe image is kept'
none='no image is there'
other='the image there is another one'
taken='its image is taken'
said='one 36 13 nobody
= 18'
low() {
    grep -oE '^([0-3][0-9a-f]{11}|[0-9a-f]{8,11})-'
}

# One image, and its file. The program writes its own data and a library's.
start 'a first start' "$none$keeps" "$said" disk ./chain
for _ in 1 2 3; do start 'a start after it' "$taken" "$said" disk ./chain; done
image=kept/$(ls -A kept)
want 'the file of an image' '600 1 regular file' "$(stat -c '%a %h %F' "$image")"
cp "$image" copy
for _ in 1 2 3; do start 'a start again' "$taken" "$said" disk ./chain; done
cmp "$image" copy
want 'binds where an image is taken' "$said" "$(BINDS=1 ended ./run-kept -c kept disk ./chain)"
[ "$(stat -c %s "$image")" -lt 200000 ] || { echo "1.2 MB of zeros are in $image" >&2; exit 1; }
# open_of COMMAND..: prints the number of open files of a running program, and the number of its
# shared maps.
open_of() {
    held_by "$@" /dev/stdin
    until grep -q '^list$' held.out; do sleep 0.01; done # it has opened all its files
    ls /proc/$!/fd | wc -l
    grep -cE '^([0-3][0-9a-f]{11}|[0-9a-f]{8,11})-[0-9a-f]+ ...s' /proc/$!/maps || true
    let_go
}
usual=$(open_of ./place)
for run in ./run-taken "./run-kept -c kept" "./run-kept -c kept" "$built/rlibreg-run -c kept"; do
    want "what a program has by $run" "$usual" "$(open_of $run disk ./place)"
done
rm kept/*
# shared: prints the number of an image's maps that are maps of its file.
shared() {
    ./run-kept -c kept disk ./place | grep -cE '^([0-3][0-9a-f]{11}|[0-9a-f]{8,11})-.*/kept/'
}
kept_by_it=$(shared)
[ "$kept_by_it" -gt 2 ] || { echo "$kept_by_it maps of the file that is kept" >&2; exit 1; }
want 'maps of the file in the next start' "$kept_by_it" "$(shared)"
rm kept/*

# Read-only pages also stay read-only in the start that keeps the image, and shares its pages with the
# file.
$compile -pie -Wl,-e,_start,-z,relro -o walls "$programs/walls.c"
for said_of_it in "$none$keeps" "$taken" "$taken"; do
    start 'pages that are fixed' "$said_of_it" 'before
= 139' disk ./walls fixed
done
rm kept/*

# A disk, and then a program, changed in place; the roots, the length and the time stay equal.
start 'an image' "$none$keeps" "$said" disk ./chain
cp -p disk before.disk
cp -p chain before
sed 's/"one"/"uno"/' "$programs/one.c" | $compile -shared -Wl,-soname,libone.so -o libone.so -x c -
disk_of other.disk
cmp -n 1024 disk other.disk
cat other.disk > disk
touch -r before.disk disk
changed=${said/one/uno}
start 'another registry of equal roots' "$other$keeps" "$changed" disk ./chain
start 'that one again' "$taken" "$changed" disk ./chain
LC_ALL=C sed 's/ nobody/ NOBODY/' before > chain
touch -r before chain
want 'the size and time of another program' "$(stat -c '%s %Y' before)" "$(stat -c '%s %Y' chain)"
start 'another program' "$other$keeps" "${changed/nobody/NOBODY}" disk ./chain
start 'that program again' "$taken" "${changed/nobody/NOBODY}" disk ./chain
cat before > chain
start 'the program from before' "$other$keeps" "$changed" disk ./chain
want 'images of one program' 1 "$(ls -A kept | wc -l)"

# On tmpfs, a write through a map doesn't change the time.
if [ "$(stat -f -c %T .)" = tmpfs ]; then
    gcc $flags -o mapped "$here/loader/mapped.c"
    held_by ./mapped disk before.disk
    start 'a disk that is mapped' "$taken" "$changed" disk ./chain
    let_go
    start 'other bytes through a map' "$other$keeps" "$said" disk ./chain
    cat other.disk > disk
    start 'the bytes from before the map' "$other$keeps" "$changed" disk ./chain
    # Another writer comes between a bind and the copy of what the bind read.
    cat before.disk > disk
    rm kept/*
    RAW=other.disk start 'other bytes behind the bind' "$none
nothing is kept: what was bound can't be read again" "$said" disk ./chain
    want 'images of other bytes' 0 "$(ls -A kept | wc -l)"
    start 'these bytes' "$none$keeps" "$changed" disk ./chain
fi

# A block device on which another disk of equal roots and length replaces the first.
if [ "$(id -u)" = 0 ] && cp before.disk first.disk && device=$(losetup -f --show first.disk 2> lost); then
    trap 'losetup -d "$device"' EXIT
    start 'a block device' "$none$keeps" "$said" "$device" ./chain
    start 'the device again' "$taken" "$said" "$device" ./chain
    dd if=other.disk of="$device" conv=notrunc,fsync 2> lost
    start 'another disk that is written onto the device' "$other$keeps" "$changed" "$device" ./chain
    dd if=before.disk of="$device" conv=notrunc,fsync 2> lost
    start 'the first one, written onto it' "$other$keeps" "$said" "$device" ./chain
    # An entry gets another name, and the bytes of its library stay the same.
    entry=$(LC_ALL=C grep -aboP 'LIBE[\s\S]{12}libone' before.disk | LC_ALL=C sed -n '1s/:.*//p')
    printf libuno | dd of="$device" bs=1 seek=$((entry + 16)) conv=notrunc,fsync 2> lost
    start 'another name in an entry' "$other" 'refused B3 Missing /program libone.so
= 125' "$device" ./chain
    printf libone | dd of="$device" bs=1 seek=$((entry + 16)) conv=notrunc,fsync 2> lost
    start 'the name from before' "$taken" "$said" "$device" ./chain
    losetup -d "$device"
    trap - EXIT
    if losetup "$device" other.disk; then
        start 'another disk in the device' "$other$keeps" "$changed" "$device" ./chain
        losetup -d "$device"
    fi
    rm kept/*
else
    echo "skipped: a block device whose images are kept ($(cat lost))"
fi

# Options.
start 'a program that needs -x' "$none$keeps" 'rewritten
= 0' -x disk ./both
start 'that program again' "$taken" 'rewritten
= 0' -x disk ./both
start 'that program without -x' "$none" \
    'rlibreg-run: ./both: it has memory that may be written and executed, for which -x is needed
= 125' disk ./both
for base in 7000000000 6000000000; do
    for _ in 1 2; do
        want "an image at $base" "$base-" "$(./run-kept -c kept -b 0x$base disk place | low | head -1)"
    done
done
want 'bases of an image that is kept' 1 \
    "$(for _ in 1 2 3; do ./run-kept -c kept disk place | low | head -1; done | sort -u | wc -l)"
if setarch -R true 2> lost; then
    want 'a base where the user wants no other' 10000000000- \
        "$(setarch -R ./run-kept -c kept disk place | low | head -1)"
fi

# The owners of the file and of the folder. An image that isn't used is replaced.
replaced() {
    start "$1" "$2$keeps" "$changed" disk ./chain
    start "$1, replaced" "$taken" "$changed" disk ./chain
}
rm kept/*
start 'an empty folder' "$none$keeps" "$changed" disk ./chain
image=kept/$(ls -A kept)
unfit='Operation not permitted'
chmod g+w "$image"
replaced 'a file that its group may write' "$unfit"
chmod o+w "$image"
replaced 'a file that others may write' "$unfit"
ln "$image" second
replaced 'a file with a second name' "$unfit"
cp "$image" copy
ln -sf "$PWD/copy" "$image"
replaced 'a link' "$(error_text 40)"
rm "$image"
mkfifo "$image"
replaced 'a pipe' "$unfit"
if [ "$(id -u)" = 0 ]; then
    chown 12345 "$image"
    replaced 'a file of another user' "$unfit"
fi
nothing() {
    start "$1" "$2" "$changed" disk ./chain
}
rm "$image"
mkdir "$image"
nothing 'a folder of the name of an image' "$unfit
Is a directory"
rmdir "$image"
start 'an image once more' "$none$keeps" "$changed" disk ./chain
for mode in 720 702; do
    chmod $mode kept
    nothing "a folder of mode $mode" "$unfit"
done
chmod 700 kept
if [ "$(id -u)" = 0 ]; then
    chown 12345 kept
    nothing 'a folder of another user' "$unfit"
    chown 0 kept
fi
mv kept moved
nothing 'no folder' 'No such file or directory'
ln -s moved kept
nothing 'a link to a folder' 'Not a directory'
# used FOLDER COMMAND..: runs a start by COMMAND. Prints 1 if it uses an image from FOLDER or keeps one
# there, and otherwise 0.
used() {
    "${@:2}" ./run-kept -v -c "$1" disk ./chain 2>&1 | grep -c 'is taken$\|is kept$' || true
}
for name in kept/ kept// kept/. kept/./; do
    want "a link to a folder, as $name" 0 "$(used $name)"
done
for name in moved/ moved/. ./moved//; do
    want "a folder, as $name" 1 "$(used $name)"
done
rm kept
: > kept
nothing 'a file for a folder' 'Not a directory'
rm kept
mv moved kept

# The users who may read an image: all users, if all of them may read the disk and the program, and reach
# both.
chmod 755 kept
chmod a+r disk chain
mkdir -m 755 within_reach
# of_mode WANTED WHAT [DISK]: checks that the image which a start over DISK keeps has the mode
# WANTED.
of_mode() {
    rm -f kept/*
    start "an image of mode $1: $2" "$none$keeps" "$changed" "${3:-within_reach/disk}" ./chain
    want "an image's mode: $2" $1 "$(stat -c %a kept/*)"
}
cp disk within_reach/
ln -s within_reach/disk linked
rights=$(stat -c %a .)
chmod a+x .
above=$PWD
while [ "$above" != / ] && [ $((0$(stat -c %a "$above") & 011)) = 9 ]; do above=$(dirname "$above"); done
if [ "$above" = / ]; then
    of_mode 644 'all may read all'
    for file in within_reach/disk chain; do
        for who in o g; do
            chmod $who-r $file
            of_mode 600 "$who may not read $file"
            chmod $who+r $file
        done
    done
    for who in o g; do
        for folder in . within_reach; do
            chmod $who-x $folder
            for disk in within_reach/disk linked; do
                of_mode 600 "$who may not search $folder" $disk
            done
            chmod $who+x $folder
        done
    done
    chmod o-r kept
    of_mode 600 'others may not read the folder'
    chmod o+r kept
    if setfacl -m u:12345:- chain 2> lost; then
        of_mode 600 'a list of rights'
        setfacl -b chain
    else
        echo "skipped: images of what has a list of rights ($(head -n 1 lost))"
    fi
else
    echo 'skipped: images for all, since others may not reach this folder'
fi
chmod "$rights" .
rm -r within_reach linked kept/*
start 'an image once more' "$none$keeps" "$changed" disk ./chain
chmod go-r disk
start 'a disk of other rights' "$other$keeps" "$changed" disk ./chain
chmod 700 kept

# In a user namespace in which owners have no numbers, all of them are shown as one user.
if [ "$(id -u)" = 0 ] && unshare -U true 2> lost; then
    unmapped=(ended unshare -U ./run-kept -v -c kept disk ./chain)
    "${unmapped[@]}" > lost
    want 'the folder of a user without a number' "rlibreg-run: kept: $taken
$changed" "$("${unmapped[@]}")"
    chown -R 12345 kept
    chmod 755 kept
    chmod 644 kept/*
    want "another's" "rlibreg-run: kept: $unfit
$changed" "$("${unmapped[@]}")"
    chown -R 0 kept
    chmod 700 kept
else
    echo "skipped: folders of users without numbers ($(cat lost))"
fi
rm kept/*
start 'an image behind these' "$none$keeps" "$changed" disk ./chain
image=kept/$(ls -A kept)

# Files that are cut, of zeros, or of another format, boot or disk.
for length in 0 100 1400 4096 8192 $(($(stat -c %s "$image") - 1)); do
    truncate -s $length "$image"
    replaced "a file of $length bytes" "$other"
done
head -c "$(stat -c %s "$image")" /dev/zero > zeros
cat zeros > "$image"
replaced 'a file of zeros' "$other"
# another_byte FILE PLACE: replaces the byte at the offset PLACE with another one.
another_byte() {
    local byte=$(od -An -tu1 -j "$2" -N 1 "$1")
    printf "\\$(printf %o $((byte ^ 7)))" | dd of="$1" bs=1 seek="$2" conv=notrunc 2> lost
}
for at in 13 16 24 55 56 91 96 608 1119 1120; do
    another_byte "$image" $at
    replaced "another byte $at" "$other"
done

# The loader notices a changed byte of the first page. The test changes every 61st byte.
for ((at = 5; at < 4096; at += 61)); do
    another_byte "$image" $at
    start "another byte $at" "$other$keeps" "$changed" disk ./chain
done

# A second build of the loader, which may bind differently, together with the first; a third build; and a
# build without an id.
by=./run-kept-other start 'another build' "$none$keeps" "$changed" disk ./chain
for _ in 1 2; do
    start 'the image of the first build' "$taken" "$changed" disk ./chain
    by=./run-kept-other start 'that of the other build' "$taken" "$changed" disk ./chain
done
cp "$image" kept/0123456789abcdef
another_byte kept/0123456789abcdef 24
touch -d '1 hour ago' kept/0123456789abcdef
./run-kept -c kept disk ./place > lost
want 'images behind those of three builds' '3 missing' \
    "$(ls -A kept | wc -l) $([ -e kept/0123456789abcdef ] || echo missing)"
start 'an image beside them' "$taken" "$changed" disk ./chain
by=./run-kept-other start 'that of the other build still' "$taken" "$changed" disk ./chain
rm kept/*
untold='nothing is kept by what is told of the disk, the program or the loader'
by=./run-kept-none nothing 'a loader that tells of no build' "$untold"
want 'what it keeps' '' "$(ls -A kept)"
start 'an image behind it' "$none$keeps" "$changed" disk ./chain

# An image whose addresses are in use.
pieces=$(./run-taken disk place | low | wc -l)
./run-kept -c kept disk place > lost
cp -r kept copies
for how in TAKEN=1 'FREE=2 TAKEN=1' 'FREE=1 TAKEN=1 ELSEWHERE=1'; do
    want "$how" "rlibreg-run: kept: File exists
$changed" "$(ended env $how ./run-kept -v -c kept disk ./chain)"
    want "pieces of memory, $how" "$pieces" \
        "$(env $how ./run-kept -c kept disk place | low | wc -l)"
done
diff -r kept copies
rm -r copies
want 'a page that nobody gets' 'rlibreg-run: memory at the base: Operation not permitted
= 126' "$(ended ./run-kept -c kept -b 0 disk ./words)"

# Folders that are mounted: without permission to execute, and without space. mounted OPTIONS
# COMMAND: mounts a folder of images, runs COMMAND in it, and then a start.
words=(./run-kept -v -c kept disk ./chain)
mounted() {
    unshare -m "$BASH" -c 'mount -t tmpfs -o "$1" none kept && eval "$2"; "${@:3}"; ls -A kept | wc -l' \
        x "$1" "$2" "${words[@]}" 2>&1
}
of_kept=$'rlibreg-run: kept: '
if unshare -m mount -t tmpfs none kept 2> lost; then
    want 'a folder of which nothing may be executed' "$of_kept$none
${of_kept}Permission denied
${changed%$'\n'*}
0" "$(mounted mode=700,noexec :)"
    want 'one that became so' "$of_kept$unfit
${changed%$'\n'*}
1" "$(mounted mode=700 '"${@:3}" > lost 2>&1; mount -o remount,noexec kept')"
    want 'a folder without room' "$of_kept$none
${of_kept}No space left on device
${changed%$'\n'*}
0" "$(mounted mode=700,size=8k :)"
else
    echo "skipped: folders that are mounted ($(cat lost))"
fi
want 'a file longer than the user may write' "$of_kept$none
${of_kept}File too large
$changed" "$(rm kept/* && (ulimit -f 8 && ended "${words[@]}") | cat)"

# Images of older keys.
images() {
    want "images behind $1" "$2" "$(ls -A kept | wc -l)"
}
for program in ./chain ./words ./place; do ./run-kept -c kept disk $program > lost || true; done
images 'three programs' 3
./tool preload disk libone.so > /dev/null
./run-kept -c kept disk ./chain > lost || true
images 'a change and one start' 1
./run-kept -c kept disk ./place > lost
cp place place.new
mv place.new place
./run-kept -c kept disk ./place > lost
images 'a program in the place of another' 2
cp disk disk.new
mv disk.new disk
for program in ./chain ./place; do ./run-kept -c kept disk $program > lost || true; done
images 'a disk in the place of another' 2
for name in kept/*; do
    printf 'x' | dd of="$name" bs=1 seek=56 conv=notrunc 2> lost # of another boot
done
echo user > kept/0123456789abcdef
./run-kept -c kept disk ./words > lost || true
images 'another boot' 2
want "a file that is none of the loader's" user "$(cat kept/0123456789abcdef)"
rm kept/*

# No image is kept if the file of the disk, or of a long program, was changed just now.
$compile -pie -Wl,-e,_start -o long "$programs/place.c" -x c - <<< 'char more[3 << 20] = "more";'
now() {
    ./rlibreg-run -v -c kept disk "./$1" 2>&1 > lost | sed 's/^rlibreg-run: kept: //'
}
just='was changed just now'
./tool preload disk > /dev/null
want 'a disk that was changed just now' "$none
nothing is kept: the disk $just, or tells too little" "$(now place)"
sleep 2.1
# other_bytes: writes other bytes into the long program in place, and keeps its length and time.
other_bytes() {
    cp -p long before
    printf 'less' |
        dd of=long bs=1 conv=notrunc seek="$(grep -abo 'more' long | sed -n '$s/:.*//p')" 2> lost
    touch -r before long
}
if [ "$(stat -f -c %T long)" = tmpfs ]; then # its bytes are compared
    want 'a disk that was changed before' "$none$keeps" "$(now place)"
    for said_of_it in "$none$keeps" "$taken"; do want 'a long program' "$said_of_it" "$(now long)"; done
    other_bytes
    want 'that program with other bytes' "$other$keeps" "$(now long)"
else
    touch long
    want 'a program that was changed just now' "nothing is kept: the program $just
$none" "$(now long)"
    images 'changes just now' 0
    want 'a disk that was changed before' "$none$keeps" "$(now place)"
    sleep 2
    want 'a program that was changed before' "$none$keeps" "$(now long)"
    want 'that program again' "$taken" "$(now long)"
    other_bytes
    want 'that program with other bytes' "nothing is kept: the program $just
$other" "$(now long)"
fi

# The loader as it is built: in the usual case it uses the image before its C library, which would have a
# heap, is set up; in all other cases it uses the image afterwards.
run="$built/rlibreg-run -c kept"
heap() {
    "$@" | grep -c heap || true
}
if [ -z "$musl" ]; then
    want 'the heap of a loader' 1 "$(heap $built/rlibreg-run disk ./place)"
fi
./run-kept -c kept disk ./place > lost
want 'an image that the built loader takes' "rlibreg-run: kept: $taken" \
    "$($run -v disk ./place 2>&1 > lost)"
want 'a start before there is a heap' 0 "$(heap $run disk ./place)"
want 'options before it' 0 "$(heap $built/rlibreg-run -ckept -- disk ./place)"
./run-kept -c kept disk ./chain > lost || true
want 'its output and status' "$changed" "$(ended $run disk ./chain)"
want 'a start with many words' "$changed" "$(ended $run disk ./chain $(seq 3000))"
want 'a start whose input is the disk' "$changed" "$(ended $run disk ./chain < disk)"
for limit in 's 256' 's unlimited' 'v 12000'; do
    want "a start with ulimit -$limit" "$changed" "$(ulimit -$limit && ended $run disk ./chain)"
done
want 'a disk that it writes' 'rlibreg-run: disk: Text file busy
= 126' "$($run disk ./chain 2>&1 >> disk || echo "= $?")"

# Each call by which an image is kept fails, or the process is killed at that call.
for how in DIE FAIL; do
    for call in {1..40}; do
        rm -f kept/*
        found=$(ended env $how=$call ./run-kept -v -c kept disk ./chain 2>&1)
        [[ $how = DIE || $found = *"$changed" ]] || want "$how=$call" "$changed" "$found"
        if [[ $found = *"the image is kept"* ]]; then break; fi
        images "$how=$call" 0
    done
    [ "$call" -gt 4 ] && [ "$call" -lt 40 ] || { echo "$how: $call calls" >&2; exit 1; }
    images "$how" 1
done
# age: makes the image look like an image of another boot.
age() {
    printf x | dd of="$(echo kept/*)" bs=1 seek=56 conv=notrunc 2> lost
}
age
for call in {1..40}; do
    found=$(ended env DIE=$call ./run-kept -v -c kept disk ./chain 2>&1)
    if [[ $found = *"the image is kept"* ]]; then break; fi
    start "a start behind DIE=$call" "$([ -n "$(ls -A kept)" ] && echo "$other" || echo "$none")$keeps" \
        "$changed" disk ./chain
    age
done

# with_pages FILE TEXT: makes a program that has more pages.
with_pages() {
    $compile -pie -Wl,-e,_start -o "$1" "$programs/chain.c" -x c - -x none libtwo.so libone.so <<< "$2"
}
# Writes that end early, and the many parts of a program whose every second page is relocated.
with_pages striped 'struct { void *at; char rest[8184]; } pages[100] = { [0 ... 99] = { &pages } };'
for length in '' 999; do
    rm -f kept/*
    SHORT=$length start "an image that is written in parts of $length bytes" "$none$keeps" "$changed" disk ./striped
    start "the image that was written in parts of $length bytes" "$taken" "$changed" disk ./striped
done

# Reads that fail: the program is bound, and an image that can't be read is removed.
with_pages wide 'const char more[1 << 14] = "more"; void *relocated[1 << 11] = { [0 ... 2047] = &relocated };'
rm -f kept/*
start 'an image to be read' "$none$keeps" "$changed" disk ./wide
OLD=1 start 'an older kernel' "$taken" "$changed" disk ./wide
UNREAD=1 start 'pages that can not be read' "$(error_text 14)$keeps" "$changed" disk ./wide
start 'the image behind them' "$taken" "$changed" disk ./wide
unread=$( (ulimit -f 8 && UNREAD=1 ended ./run-kept -v -c kept disk ./wide) | cat)
want 'such pages, where no image can be kept' "rlibreg-run: kept: $(error_text 14)
rlibreg-run: kept: File too large
$changed" "$unread"
images 'pages that can not be read' 0
start 'an image to be read again' "$none$keeps" "$changed" disk ./wide
for read in {1..99}; do
    found=$(ended env READ=$read ./run-kept -v -c kept disk ./wide)
    [ "${found%"$changed"}" != "$found" ] || want "READ=$read" "$changed" "$found"
    [[ $found != *"$taken"* ]] || break
done
[ "$read" -gt 7 ] && [ "$read" -lt 99 ] || { echo "$read reads" >&2; exit 1; }

# Rights, streams and arguments.
./run-kept -c kept disk ./place > lost
for run in ./run-kept "$built/rlibreg-run"; do
    found=$(ended ./within secure "$run" -c kept disk ./chain)
    case $found in
        "this kernel hasn't"*) echo 'skipped: images beside more rights than the user has' ;;
        *) want 'more rights than the user has' "rlibreg-run: -c: not with more rights than the user's
= 126" "$found" ;;
    esac
done
for how in '<&-' '>&-' '2>&-' '<&- >&- 2>&-'; do
    cp disk copy
    for run in ./run-kept "$built/rlibreg-run"; do
        status=0
        eval '$run -c kept disk ./chain '"$how"' > lost' || status=$?
        want "the status with $how" 18 $status
    done
    cmp disk copy
done
mkfifo end
for run in ./run-kept "$built/rlibreg-run"; do
    $run -c kept disk ./place end <&- > held.out &
    until [ -s held.out ]; do sleep 0.01; done
    want 'an input that was closed' /dev/null "$(readlink /proc/$!/fd/0)"
    : > end
    wait
    rm held.out
done
want 'a loader whose output is the disk' 'rlibreg-run: disk: Text file busy
= 126' "$(./run-kept -c kept disk ./chain 2>&1 >> disk || echo "= $?")"
want 'no folder' 'rlibreg-run: usage: rlibreg-run [-x] [-b BASE] [-c FOLDER [-v]] [-w SECONDS] DISK PROGRAM [WORD]..
= 127' "$(ended ./run-kept -c)"
want '-v alone' "$changed" "$(ended ./run-kept -v disk ./chain)"
echo 'kept: when an image is taken, and when not, as wanted'

# Tests rlibreg-run before a program runs: its arguments, files, addresses and permissions, and its
# reports about the program. The programs are those of gcc's usual linker.

programs=$here/programs
compile='command gcc -g -O1 -fPIC -nostdlib -fno-stack-protector -fno-asynchronous-unwind-tables'
compile="$compile -Wl,--hash-style=sysv"
$compile -shared -Wl,-soname,libone.so -o libone.so "$programs/one.c"
$compile -shared -Wl,-soname,libtwo.so -o libtwo.so "$programs/two.c" libone.so
$compile -shared -Wl,-soname,libboth.so -o libboth.so "$programs/both.c" 2> warned ||
    { cat warned >&2; exit 1; }
for name in words place; do $compile -pie -Wl,-e,_start -o $name "$programs/$name.c"; done
$compile -pie -Wl,-e,_start -o chain "$programs/chain.c" libtwo.so libone.so
$compile -pie -Wl,-e,_start -o needs-both "$programs/words.c" -Wl,--no-as-needed libboth.so
rm -f disk
./tool format disk 512 > /dev/null
for name in one two both; do ./tool install disk lib$name.so > /dev/null; done

# Arguments.
usage='rlibreg-run: usage: rlibreg-run [-x] [-b BASE] [-c FOLDER [-v]] [-w SECONDS] DISK PROGRAM [WORD]..
= 127'
want 'no words' "$usage" "$(ended ./rlibreg-run)"
want 'not even a name' "$usage" "$(ended ./within no-words ./rlibreg-run)"
want 'a word' "$usage" "$(ended ./rlibreg-run disk)"
want 'an option that is none' "$usage" "$(ended ./rlibreg-run -y disk ./words)"
want '-b alone' "$usage" "$(ended ./rlibreg-run -b 0x10000)"
for base in 0x 0x1z 1f '' ' 5' +5 -4096 '0x 5' 0x+5 0x10000000000000000; do
    want "the base '$base'" "$usage" "$(ended ./rlibreg-run -b "$base" disk ./words)"
done
for wait in '' x -1 1.5 1000000000 foreve foreverx; do
    want "the wait '$wait'" "$usage" "$(ended ./rlibreg-run -w "$wait" disk ./words)"
done
want '-w alone' "$usage" "$(ended ./rlibreg-run -w)"
# `plain` is the loader itself: twice.sh puts an option before the arguments of ./rlibreg-run.
want '--version' "rlibreg-run $("$here/../version.sh")
= 0" "$(ended $plain --version)"
want '--help' 'usage: rlibreg-run [-x] [-b BASE] [-c FOLDER [-v]] [-w SECONDS] DISK PROGRAM [WORD]..' \
    "$($plain --help | head -n 1)"
want '--help at a full output' '= 126' "$($plain --help > /dev/full || echo "= $?")"
want '--help with a word' "$usage" "$(ended ./rlibreg-run --help disk)"

# Waiting for a disk that another process has locked. With a kept image, the loader doesn't wait.
started=$(ended $plain disk ./words)
want 'a disk that is free' "$started" "$(ended $plain -w 0 disk ./words)"
want 'a disk that is free, without an end' "$started" "$(ended $plain -w forever disk ./words)"
(exec 9<> disk && flock -x 9 && exec sleep 30) &
holder=$!
until ! flock -n -s disk true; do sleep 0.01; done
locked='rlibreg-run: disk: the file is locked
= 126'
waits='rlibreg-run: disk: another process has locked it: waiting'
want 'no wait' "$locked" "$(ended timeout 0.9 $plain -w 0 disk ./words)"
want 'a wait of a second' "$locked" "$(ended $plain -w 1 disk ./words)"
want 'a wait of two seconds' "$waits
$locked" "$(ended $plain -w 2 disk ./words)"
want 'a wait that a signal ends' "$waits
= 124" "$(ended timeout 1.5 $plain disk ./words)"
kill "$holder"
wait "$holder" 2> /dev/null || true
(exec 9<> disk && flock -x 9 && exec sleep 2) &
until ! flock -n -s disk true; do sleep 0.01; done
want 'a wait that ends well' "$waits
$started" "$(ended $plain disk ./words)"

# Files.
truncate -s 4096 zeros
mkfifo pipe
: > empty
chmod +x empty
want 'no disk' 'rlibreg-run: none: No such file or directory
= 126' "$(ended ./rlibreg-run none ./words)"
want 'no registry' 'refused S3 NotFormatted
= 125' "$(ended ./rlibreg-run zeros ./words)"
want 'no program' 'rlibreg-run: none: No such file or directory
= 126' "$(ended ./rlibreg-run disk none)"
want 'a file that is none' 'refused B1 E1 TooShort
= 125' "$(ended ./rlibreg-run disk empty)"
for file in pipe . /dev/null; do
    want "the program $file" "rlibreg-run: $file: it is no regular file
= 126" "$(ended ./rlibreg-run disk $file)"
done
cp disk cut
want 'a disk that is cut under it' "refused S1 Device
= 126" "$(ended env CUT=cut ./run-taken cut ./words)"
cp disk cut
want 'a disk that is cut while it is read' "rlibreg-run: the disk can't be read
= 126" "$(ended env CUT_LATE=cut ./run-taken cut ./words)"
# An address space into which the kernel can't even map the loader: the kernel then kills it. If the
# system's loader runs first, it reports this with status 127.
few=
memory=$(error_text 12)
interpreter=$(readelf -lW "$built/rlibreg-run" | grep INTERP || true)
for kibibytes in {1000..2000..8} {2500..30000..1500}; do
    found=$( (ulimit -v $kibibytes && ended "$built/rlibreg-run" disk ./words) 2> lost)
    case $found in
        *": $memory
= 126" | *': Cannot allocate memory
= 126' | *'refused S11 OutOfMemory
= 126') few=yes ;;
        *'
= 3') [ "$few" = yes ] && break ;;
        *'= 139') [ -z "$few" ] || want "$kibibytes KiB of memory" 'a start, or a refusal' "$found" ;;
        *) [ -n "$interpreter" ] || want "$kibibytes KiB of memory" 'a start, or a refusal' "$found" ;;
    esac
done
want 'a start that had too little memory before' yes "$few"

# A file that the user may not execute.
cp words unfit
chmod a-x unfit
want 'a program that may not be executed' 'rlibreg-run: ./unfit: Permission denied
= 126' "$(ended ./rlibreg-run disk ./unfit)"
mkdir mounted
noexec() {
    unshare -m "$BASH" -c 'mount -t tmpfs -o noexec none mounted && cp words mounted && "$@"' x "$@"
}
if noexec true 2> lost; then
    want 'a program where none may be executed' 'rlibreg-run: mounted/words: Permission denied
= 126' "$(ended noexec ./rlibreg-run disk mounted/words)"
else
    echo "skipped: a file system without programs ($(cat lost))"
fi

# More rights than the user has: the loader's C library removes variables from the environment.
for loader in "$plain" "$built/rlibreg-run"; do
    found=$(ended env LOCPATH=x NLSPATH=x TZDIR=x SEE=me ./within secure "$loader" disk ./words)
    case $found in
        "this kernel hasn't"*) echo 'skipped: a start with more rights than its user has' ;;
        *) want "more rights, by $loader" './words
SEE=me
headers
entry
pages
ids
secure
name
aligned
nothing at the end
= 3' "$found" ;;
    esac
done

# Small stacks.
for kibibytes in 16 64 128; do
    want "a stack of $kibibytes KiB" 'rlibreg-run: the stack: Cannot allocate memory
= 126' "$(ulimit -s $kibibytes && ended "$built/rlibreg-run" disk ./words)"
done
want 'a stack of 512 KiB' '= 3' \
    "$(ulimit -s 512 && ended "$built/rlibreg-run" disk ./words $(seq 8000) | tail -1)"

# Zeros take no memory of the program until it writes them, and a large image is bound only once.
$compile -pie -Wl,-e,_start -o zeros "$programs/place.c" -x c - <<< 'char zeros[60 << 20];'
found=$(./rlibreg-run disk zeros /proc/self/statm | tail -1 | cut -d ' ' -f 2)
[ "$found" -lt 4096 ] || { echo "60 MiB of zeros: $found pages" >&2; exit 1; }
want 'binds for 60 MiB' bind "$(BINDS=1 ./run-taken disk zeros 2>&1 > lost)"

# A program whose entry lies in the memory of a library.
at=$("$rlibreg" bind disk chain 0x100000 | awk '/^object/ {library = / libtwo/} library && /r-x/ {print $2; exit}')
cp chain strayed
for shift in 0 8 16 24 32 40 48 56; do
    printf "\\x$(printf %02x $((((at - 0x100000) >> shift) & 255)))"
done | dd of=strayed bs=1 seek=24 conv=notrunc 2> lost
want 'an entry in a library' 'rlibreg-run: strayed: it has no entry
= 125' "$(ended ./rlibreg-run disk strayed)"

want 'the base 0' 'rlibreg-run: memory at the base: Operation not permitted
= 126' "$(ended ./rlibreg-run -b 0 disk ./words)"

# A program that needs a C library, which isn't in a registry.
for name in libc.so libc.so.6 libc.musl-x86_64.so.1; do
    $compile -shared -Wl,-soname,$name -o $name "$programs/one.c"
    $compile -pie -Wl,-e,_start,--no-as-needed -o needs-c "$programs/words.c" $name
    want "a program that needs $name" "refused B3 Missing /program $name
rlibreg-run: no registry has a C library: link it into the program, statically
= 125" "$(ended ./rlibreg-run disk ./needs-c)"
    rm $name
done

# Addresses. low: prints the maps below the addresses that the kernel chooses: those of the image.
low() {
    grep -E '^([0-3][0-9a-f]{11}|[0-9a-f]{8,11})-'
}
pieces=$(./run-taken disk place | low | wc -l)
for _ in 1 2 3 4 5 6 7 8; do
    at=$((16#$(./rlibreg-run disk place | low | head -1 | sed 's/-.*//')))
    [ $((at % (2 << 20))) = 0 ] || { echo "a base that is no multiple of 2 MiB: $at" >&2; exit 1; }
    echo $at
done > found
want 'bases of eight starts' $bases "$(sort -u found | wc -l)"
if setarch -R true 2> lost; then
    want 'a base where the user wants no other in each start' 10000000000 \
        "$(setarch -R ./rlibreg-run disk place | low | head -1 | sed 's/-.*//')"
fi
for how in 'TAKEN=1' 'TAKEN=15' 'FREE=2 TAKEN=1' 'FREE=1 TAKEN=2 ELSEWHERE=1' 'TAKEN=15 ELSEWHERE=1'; do
    want "pieces of memory, $how" "$pieces" "$(env $how ./run-taken disk place | low | wc -l)"
done
taken='rlibreg-run: memory at the base: File exists
= 126'
for how in 'TAKEN=16' 'TAKEN=16 ELSEWHERE=1'; do
    want "no place, $how" "$taken" "$(ended env $how ./run-taken disk place)"
    want "a place that the user named, $how" "$taken" \
        "$(ended env TAKEN=1 ./run-taken -b 0x10000000000 disk place)"
done

# The disk.
held_by ./rlibreg-run disk ./place /dev/stdin
want 'a change beside a program that runs' ok "$(./tool install disk "$data/strong.so")"
let_go
held_by ./tool hold remove disk b
./rlibreg-run disk chain > waited 9>&- &
sleep 0.1
want 'a start beside a change' '' "$(cat waited)"
let_go
want 'a start after it' 'one 36 13 nobody' "$(cat waited)"

# Alignments. aligned FILE NEW BYTE: copies FILE to NEW, where the first segment has an alignment of BYTE
# (hexadecimal) times 2^40.
aligned() {
    number=$(readelf -lW "$1" | awk '$1 == "LOAD" {print seen + 0; exit} / 0x/ {seen++}')
    cp "$1" "$2"
    printf "\\x0\\x0\\x0\\x0\\x0\\x$3" |
        dd of="$2" bs=1 seek=$((64 + 56 * number + 48)) conv=notrunc 2> lost
}
aligned place aligned-20 20
aligned place aligned-40 40
want 'the one base of a great unit' 200000000000 \
    "$(./rlibreg-run disk aligned-20 | low | head -1 | sed 's/-.*//')"
want 'a unit that is too great' 'refused B2 BadBase
= 125' "$(ended ./rlibreg-run disk aligned-40)"
aligned libone.so libone-20.so 20
cp disk wide
./tool replace wide libone-20.so > /dev/null
$compile -pie -Wl,-e,_start -o far "$programs/place.c" -Wl,--no-as-needed libone.so
pieces=$(./run-taken -b 0x10000000000 wide far | low | wc -l)
for _ in 1 2 3 4 5 6; do
    want 'pieces of memory, with a library of a great unit' "$pieces" \
        "$(./run-taken wide far | low | wc -l)"
done

# Permissions.
want 'a library with a segment that may be written and executed' \
    'rlibreg-run: libboth.so: it has memory that may be written and executed, for which -x is needed
= 125' "$(ended ./rlibreg-run disk needs-both)"
want 'the same with -x' '= 3' "$(ended ./rlibreg-run -x disk needs-both | tail -1)"
found=$(ended ./within no-gain "$plain" disk words)
case $found in
    "this kernel hasn't"*) echo 'starting: this kernel lets all memory be executed' ;;
    *) want 'where memory may not become executable' 'rlibreg-run: memory that may be executed (SELinux: allow execmem; systemd: MemoryDenyWriteExecute=no): Permission denied
= 126' "$found" ;;
esac

# The names and files of the program that the system and a debugger report.
cp place a-program-of-a-long-name
want 'the name' place "$(./rlibreg-run disk ./place | head -1)"
want 'a long name' a-program-of-a- "$(./rlibreg-run disk a-program-of-a-long-name | head -1)"
if [ -n "$musl" ]; then
    echo 'skipped: gdb, which finds nothing with musl'
elif command -v gdb > /dev/null && setarch -R true 2> lost; then
    mkdir debugged
    [ -z "${debugged:-}" ] || sleep 2.1 # so that the disk was not changed just now
    for _ in 1 ${debugged:+2}; do
        (cd debugged && gdb -batch -nx -ex 'set breakpoint pending on' \
            -ex 'set solib-search-path ..' -ex 'break begin' -ex 'break two' -ex run \
            -ex 'print own_count' -ex continue -ex 'print one_count' \
            --args ${debugged:-"$built/rlibreg-run"} ../disk ../chain) \
            > found 2>&1 < /dev/null || true
        want 'where gdb stops' 'Breakpoint 1, begin
$1 = 5
Breakpoint 2, two
$2 = 11' "$(grep -oE '^Breakpoint [12], [a-z]+|^\$[12] = .*' found)"
    done
else
    echo "starting: there is no gdb here, or it may not fix addresses ($(cat lost))"
fi

# The loader as it is built.
want 'the built loader' 'one 36 13 nobody
= 18' "$(ended "$built/rlibreg-run" disk chain)"
readelf -lhdW "$built/rlibreg-run" > found
for what in 'DYN (' GNU_RELRO 'BIND_NOW'; do
    grep -qF "$what" found || { echo "the built loader has no $what" >&2; exit 1; }
done
nm "$built/rlibreg-run" | grep -q __stack_chk_fail
echo "starting: words, files, places, permissions, and what is told of a program: as wanted"

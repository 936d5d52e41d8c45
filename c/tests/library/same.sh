# Runs the program and the library, each on a disk of its own, and compares what both print, their
# statuses, and every byte of the two disks after each command. If an answer has the number of a test of
# a file, it has to be the number and the name of the test in the answer's text.

count=0

# both COMMAND [WORD]..: runs COMMAND with the program on the disk `theirs`, and with the library on
# the disk `ours`.
both() {
    local theirs ours test=
    theirs=$("$rlibreg" "$1" theirs "${@:2}" && echo '= 0' || echo "= $?")
    ours=$(./tool "$1" ours "${@:2}" 2> test && echo '= 0' || echo "= $?")
    case $theirs in
        refused\ [BC]1\ E*) test=$(grep -o 'E[0-9]* [A-Za-z]*' <<< "$theirs") ;;
    esac
    want "$*" "$theirs" "$ours"
    want "$*: the test" "$test" "$(< test)"
    cmp theirs ours
    count=$((count + 1))
}

truncate -s $((512 * 512)) theirs ours
both list
both upgrade
both install "$data/strong.so"
both format 512
both format 512
both format 64
for file in "$data"/*.so "$data/empty" "$data/real-32.o" "$data/real-one.debug"; do
    both install "$file"
    both replace "$file"
    both bind "$file" 0x10000
done
both list

# A line that is longer than the first buffer for texts.
name=$(printf 'a%.0s' {1..5000})
echo "extern int $name; int *pointer = &$name;" |
    gcc -shared -fPIC -nostdlib -Wl,--hash-style=sysv -o undefined.so -x c -
both bind undefined.so 0x10000
want 'the line of a long name' 5031 "$(./tool bind ours undefined.so 0x10000 | wc -c)"

both bind "$data/program-1.so" 0x10001
both bind "$data/program-1.so" 0x7fffffff0000
both preload a b
both bind "$data/program-1.so" 0x7fffff000
both preload a a
both preload z
both preload 1 2 3 4 5 6 7 8 9 10 11 12 13 14 15 16 17
both remove a
both preload
both remove a
both remove a
both list
for disk in "$data"/*.disk; do
    cp "$disk" theirs
    cp "$disk" ours
    chmod u+w theirs ours
    both list
    both install "$data/soname-good-0.so"
    both bind "$data/program-1.so" 0x10000
    both upgrade
    both list
    both install "$data/soname-good-0.so"
    both replace "$data/protected.so"
    both bind "$data/program-1.so" 0x10000
done
rm -f theirs ours
both format 24
for length in 1 512 4000 4096; do
    truncate -s $length theirs ours
    both list
    both format 8
done
echo "same: $count commands by the program and by the library: the same text, status and bytes"

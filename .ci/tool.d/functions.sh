# The functions that the parts of .ci/tool share.

fail() {
    echo "tool: $1"
    exit 1
}

# ends STATUS WORDS..: runs the tool, which has to end with this status. Writes its output to the file
# `said`, and its messages to `told`.
ends() {
    local status=0
    "$tool" "${@:2}" > said 2> told || status=$?
    [ "$status" = "$1" ] || fail "${*:2} ended with $status and not with $1: $(cat told)"
}

# told LINE: checks that standard error has exactly this line.
told() {
    [ "$(cat told)" = "$1" ] || fail "standard error has '$(cat told)' and not '$1'"
}

# line WORDS FILE: prints a line of a script with the bytes of a file.
line() {
    printf '%s ' "$1"
    od -An -v -tx1 "$2" | tr -d ' \n'
    echo
}

make_library() {
    echo "int $1(void) { return $2; }" > "$1.c"
    gcc -shared -fPIC -nostdlib -Wl,--hash-style=sysv -Wl,-soname,"lib$1.so" -o "lib$1.so" "$1.c"
}

# place DISK FILE: prints the place of a file's bytes in a disk.
place() {
    python3 -c 'import sys
disk, file = (open(path, "rb").read() for path in sys.argv[1:])
assert disk.count(file) == 1
print(disk.find(file))' "$1" "$2"
}

# code FILE: prints the place of the number that the function of a library returns.
code() {
    python3 -c 'import sys
file = open(sys.argv[1], "rb").read()
assert file.count(b"\xb8\1\0\0\0") == 1
print(file.find(b"\xb8\1\0\0\0") + 1)' "$1"
}

# damage DISK AT: flips a bit of the byte of DISK at the offset AT.
damage() {
    local byte
    byte=$(od -An -tu1 -j "$2" -N 1 "$1")
    printf "\\x$(printf %02x $((byte ^ 1)))" | dd of="$1" bs=1 seek="$2" conv=notrunc status=none
}

make_program() {
    cat > "p$1.c" <<END
extern int $1(void);
void _start(void) {
    __asm__ volatile("syscall" : : "a"(60), "D"($1()));
    __builtin_unreachable();
}
END
    gcc -O1 -fPIC -nostdlib -fno-stack-protector -pie -Wl,--hash-style=sysv,-e,_start \
        -o "p$1" "p$1.c" "lib$1.so"
}

# exits STATUS PROGRAM..: runs the program, which has to end with this status.
exits() {
    local status=0
    "${@:2}" 2> told || status=$?
    [ "$status" = "$1" ] || fail "${*:2} ended with $status and not with $1: $(cat told)"
}

# count: prints the number of program headers of the executable that was made.
count() {
    od -An -tu2 -j 56 -N 2 said | tr -d ' '
}

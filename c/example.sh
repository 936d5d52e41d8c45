#!/usr/bin/env bash
# example.sh [FOLDER] makes a library and a program with gcc, installs the library in a new registry by
# the updater of docs/C.md, and runs the program by rlibreg-run. It prints each step. Run build.sh
# first, which puts the C library into FOLDER, or into c/out.
set -eu
cd "$(dirname "$0")/.."
out=${1:-c/out}
if [ ! -x "$out/rlibreg-run" ]; then
    echo "c/example.sh: there is no $out/rlibreg-run: run c/build.sh first" >&2
    exit 1
fi
out=$(cd "$out" && pwd)
room=$(mktemp -d)
trap 'rm -rf "$room"' EXIT
awk '/^```c$/ {block++; next} /^```$/ {inside = 0} block == 1 && /^\/\*/ {inside = 1} inside' \
    docs/C.md > "$room/updater.c"
cp c/tests/programs/{start,say}.h "$room/"
cd "$room"
gcc -I"$out" -o updater updater.c "$out/librlibreg.a"
cat > greeting.c << 'END'
const char *greeting(void) { return "hello from a registry\n"; }
END
cat > program.c << 'END'
#include "start.h"
const char *greeting(void);
void begin(uint64_t *stack, uint64_t at_end) {
    (void)stack, (void)at_end;
    say(greeting());
    leave(0);
}
END
PATH=$PATH:$out:.
object='gcc -O1 -fPIC -nostdlib -Wl,--hash-style=sysv'
set -x
$object -shared -Wl,-soname,libgreeting.so -o libgreeting.so greeting.c
$object -pie -Wl,-e,_start -o program program.c libgreeting.so
updater disk libgreeting.so
rlibreg-run disk program
{ set +x; } 2> /dev/null

#!/usr/bin/env bash
# musl.sh BUILT builds everything with musl-gcc, and tries it in a system without another C library: each
# form of the programs beside those that c/build.sh has put into BUILT, the updater of docs/C.md with both
# libraries, and a program under rlibreg-run. Then come the tests of the C library over what was built.
#
# The script needs root, and Debian's musl-tools. It takes two minutes in addition to what c/build.sh
# proves; the variables RLIBREG_C, RLIBREG_O and RLIBREG_TOOL_O spare these proofs.
set -euo pipefail
built=$(cd "$1" && pwd)
cd "$(dirname "$0")/../.."
tests=$PWD/c/tests
data=$PWD/crates/cases/data
room=$(mktemp -d)
trap 'rm -rf "$room"' EXIT
export CC=musl-gcc
c/build.sh llvm "$room/musl" > "$room/said" 2>&1 || { cat "$room/said"; exit 1; }
awk '/^```c$/ {block++; next} /^```$/ {inside = 0} block == 1 && /^\/\*/ {inside = 1} inside' \
    docs/C.md > "$room/updater.c"
cd "$room"
. "$tests/want.sh"

for name in rlibreg rlibreg-tool rlibreg-run; do
    want "what $name needs" '' "$(readelf -dlW "musl/$name" | grep -E 'INTERP|NEEDED' || true)"
done
want 'what the shared library needs' libc.so \
    "$(readelf -dW musl/librlibreg.so | sed -n 's/.*Shared library: \[\(.*\)\]/\1/p')"

# The folder `root` has only musl, and the folder `other` has the other builds.
mkdir -p root/lib root/bin other
cp "$(readlink -f /lib/ld-musl-x86_64.so.1)" root/lib/ld-musl-x86_64.so.1
ln -s ld-musl-x86_64.so.1 root/lib/libc.so
cp -P musl/librlibreg.so* root/lib/
cp musl/rlibreg{,-tool,-run} root/bin/
$CC -Imusl -o root/bin/updater updater.c -Lmusl -lrlibreg
$CC -static -Imusl -o root/bin/updater-static updater.c musl/librlibreg.a
cp "$built"/rlibreg{,-tool,-run} other/
gcc -I"$built" -o other/updater updater.c "$built/librlibreg.a"
cp other/updater other/updater-static
cat > program.c << 'END'
#include "start.h"
const char *greeting(void);
void begin(uint64_t *stack, uint64_t at_end) {
    (void)at_end;
    say(greeting());
    leave((int)stack[0]);
}
END
object="gcc -O1 -fPIC -nostdlib -fno-stack-protector -Wl,--hash-style=sysv -I$tests/programs"
for word in hello better; do
    echo "const char *greeting(void) { return \"$word\\n\"; }" > greeting.c
    $object -shared -Wl,-soname,libgreeting.so -o $word.so greeting.c
done
$object -pie -Wl,-e,_start -o program program.c hello.so
for place in root other; do
    cp {hello,better}.so program "$data"/{old-one.disk,strong.so} $place/
    chmod u+w $place/old-one.disk
done

# both COMMAND WORD..: runs the command in both places. The text, the status and the bytes of the disk have
# to be the same. The line on standard input is for `script`.
count=0
both() {
    (cd other && ended "./$@") <<< preload > there
    ended chroot root "/bin/$@" <<< preload > here
    if ! cmp there here || { [ -f root/disk ] && ! cmp {root,other}/disk; }; then
        echo "musl: $* differs" >&2
        exit 1
    fi
    count=$((count + 1))
}
for form in 'rlibreg image strong.so 0x10000' 'rlibreg format disk 256' 'updater disk hello.so' \
    'updater-static disk hello.so' 'rlibreg install disk strong.so' 'rlibreg preload disk b' \
    'rlibreg list disk' 'rlibreg-run disk program one two' 'rlibreg replace disk better.so' \
    'rlibreg-run disk program' 'rlibreg bind disk program 0x10000' 'rlibreg script disk' \
    'rlibreg remove disk b' 'rlibreg upgrade old-one.disk' 'rlibreg list old-one.disk' \
    'rlibreg list none' 'rlibreg' 'rlibreg-tool info disk' 'rlibreg-tool check disk' \
    'rlibreg-tool dump disk' 'rlibreg-tool file disk libgreeting.so' \
    'rlibreg-tool replace disk hello.so' 'rlibreg-tool executable disk program 0x400000' \
    'rlibreg-tool remove disk libgreeting.so' 'rlibreg-run disk program' 'rlibreg-run disk none' \
    'updater disk none'; do
    both $form
done
echo "musl: $count commands where there is no other C library: as elsewhere"
cd "$tests/../.."
c/tests/run.sh "$room/musl" "$room/musl/rlibreg"

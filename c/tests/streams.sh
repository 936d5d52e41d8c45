# Runs the two programs of docs/C.md, the loader and the Python module with each set of the standard
# streams closed, and with each stream leading to the disk: only a change writes into the disk.

cat > greet.c << 'EOF'
#include "start.h"
int one(void);
void begin(uint64_t *stack, uint64_t at_end) {
    (void)stack, (void)at_end;
    for (int i = 0; i < one(); i++) kernel(1, 1 + i % 2, (long)"greeting\n", 9);
    leave(7);
}
EOF
gcc -O1 -fPIC -nostdlib -I"$here/programs" -Wl,--hash-style=sysv -pie -Wl,-e,_start -o greet greet.c \
    libone.so
cat > closes.py << 'EOF'
import os, sys
sys.path.insert(0, sys.argv[1])
import rlibreg
for number in range(3):
    try:
        if sys.argv[2] == 'closes':
            os.close(number)
    except OSError:
        pass
try:
    with rlibreg.Registry('disk', read_write=True) as registry:
        for number in (1, 2):
            try:
                os.write(number, b'what is printed\n' * 100)
            except OSError:
                pass
        registry.replace(open('libone.so', 'rb').read())
except rlibreg.SystemFault:
    os._exit(9)
os._exit(0)
EOF
export LD_LIBRARY_PATH=$built
# A name that is longer than the buffer of stdio is written as soon as it is printed.
long=$(printf './%.0s' $(seq 2040))libone.so
uses=("./updater disk $long" './updater disk plugin' './updater disk none' './host disk plugin 1'
    './host disk none 1' './rlibreg-run disk ./greet' './rlibreg-run disk none'
    './rlibreg-run -b 1x disk ./greet')
if [ -z "$musl" ] && command -v python3 > /dev/null; then
    uses+=("python3 -B closes.py $here/../../python closes" "python3 -B closes.py $here/../../python stays")
fi

# with HOW COMMAND..: runs a command with streams that are closed, or that lead to the disk. Returns its
# status.
with() (
    for stream in $1; do eval "exec $stream"; done
    status=0
    "${@:2}" || status=$?
    exit $status
)
count=0
rm -f disk
./updater disk libone.so > said
cp disk before.disk
for use in "${uses[@]}"; do
    cp before.disk disk
    plain=0
    $use > said 2>&1 || plain=$?
    cp disk after.disk
    for how in '<&-' '>&-' '2>&-' '<&- >&-' '<&- 2>&-' '>&- 2>&-' '<&- >&- 2>&-'; do
        cp before.disk disk
        status=0
        with "$how" $use < /dev/null > said 2>&1 || status=$?
        want "the status of ${use:0:60} with $how" $plain $status
        cmp disk after.disk
        count=$((count + 1))
    done
    for how in '<>disk' '1<>disk' '2<>disk' '>>disk' '2>>disk' '>>disk 2>>disk'; do
        [[ $use != *' closes' ]] || continue # it has none of them
        cp before.disk disk
        status=0
        with "$how" $use < /dev/null > said 2> told || status=$?
        [ $status != 0 ] || { echo "${use:0:60} with $how ended with 0" >&2; exit 1; }
        cmp disk before.disk
        count=$((count + 1))
    done
done
want 'a loader whose output is the disk' 'rlibreg-run: disk: Text file busy
= 126' "$(./rlibreg-run disk ./greet 2>&1 >> disk || echo "= $?")"
want 'it reads the disk' 'greeting
= 7' "$(ended ./rlibreg-run disk ./greet < disk | sed -n '1p; $p')"
cmp disk before.disk

# A filter of system calls refuses fcntl. Then no process can find out whether a stream is open, so each
# opening of the disk fails, without a wait.
gcc $flags -o filtered "$here/filtered.c"
refused=0
if ./filtered 1 true 2> told; then
    for why in 1 38; do
        for loader in ./rlibreg-run "$built/rlibreg-run"; do
            want "a loader whose fcntl fails with $why" "rlibreg-run: disk: $(error_text $why)
= 126" "$(ended timeout 20 ./filtered $why "$loader" disk ./greet)"
        done
        for use in './updater disk libone.so' './host disk plugin 1' "$rlibreg list disk" "$rlibreg remove disk none"; do
            status=0
            timeout 20 ./filtered $why $use > said 2>&1 || status=$?
            [[ $status != 0 && $status -lt 124 ]] ||
                { echo "$use ended with $status when fcntl failed with $why" >&2; exit 1; }
            refused=$((refused + 1))
        done
        cmp disk before.disk
    done
else
    echo "skipped: fcntl that is refused ($(cat told))"
fi
echo "streams: $count runs of programs whose streams are closed or the disk, $refused without fcntl: it is as a change leaves it"

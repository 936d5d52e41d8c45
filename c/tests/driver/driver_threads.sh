# A part of driver.sh: tests thread-local data, which gcc emulates with a plugin (c/plugin.sh), and
# clang without one.

plugin=$built/rlibreg_tls-$(gcc -dumpfullversion).so
musl-gcc -fPIC -c -o native.o -x c - <<< '__thread int number; int one(void) { return number++; }'
plain_hint='this gcc has no plugin for it (rlibreg-gcc(1)): make one, or compile by clang -femulated-tls, or by '
plain_hint="$plain_hint-D__thread= for one thread"
hint=$plain_hint
[ ! -f "$plugin" ] ||
    hint='compile all of it by this driver, or by clang -femulated-tls, and none in assembly'
refused 'thread-local data that is not emulated' \
    "$gcc: output: refused C1 E11 TlsSegment: thread-local data: $hint" $gcc -shared native.o
# Attacks on the emulation, with control blocks as compilers make them.
$gcc -O2 -o tried driver_threads_tried.c
for word in many memory fork signals races keys errno threads; do
    want "attacks: $word" 'wrong: 0
= 0' "$(ended timeout -s KILL 600 "$built/rlibreg-run" disk ./tried $word | grep -v ' threads, not 10000$')"
done

# emulated WORD..: compiles with the driver if it has its plugin, and otherwise with clang.
musl_headers=$(sed -n 's/.* -isystem \([^ ]*musl[^ ]*\) .*/\1/p' "$specs" | head -n 1)
by_clang() {
    clang -femulated-tls -fPIC -fno-stack-protector -nostdinc -isystem "$musl_headers" \
        -isystem "$(clang -print-resource-dir)/include" "$@"
}
ran='thread 1 ends with 1003, 26, 1
thread 1 ends with 1004, 26, 1
thread 2 ends with 1003, 26, 1
thread 2 ends with 1004, 26, 1
wrong: 0
= 0'
rm -f thread.disk
"$built/rlibreg" format thread.disk 4096 > told
# shares WHAT COMPILER COMPILER COMPILER [WORD..]: checks that two libraries and a program, each compiled
# with one of the COMPILERs, share thread-local data.
shares() {
    local name
    $2 -O2 -c -o one.o driver_threads_one.c
    $3 -O1 -c -o two.o driver_threads_two.c
    $4 -c -o threads.o driver_threads.c
    $gcc "${@:5}" -shared -o libthreads1.so one.o
    $gcc "${@:5}" -shared -o libthreads2.so two.o
    $gcc "${@:5}" -o threads threads.o libthreads1.so libthreads2.so
    for name in libthreads1.so libthreads2.so; do
        "$built/rlibreg" replace thread.disk $name > told 2>&1 ||
            "$built/rlibreg" install thread.disk $name > told
    done
    want "$1" "$ran" "$(ended "$built/rlibreg-run" thread.disk ./threads)"
}
if command -v clang > told; then
    shares 'clang' by_clang by_clang by_clang
else
    echo 'skipped: emulated thread-local data by clang, which is not here'
fi
if [ -f "$plugin" ]; then . "$here/driver/driver_plugin.sh"; else echo "left out: gcc's plugin for thread-local data"; fi

# Without a plugin for this gcc, the driver works as before, even if several drivers run at once.
mkdir plain
cp -a "$built"/rlibreg* plain
rm -f plain/rlibreg_tls-*
: > plain/rlibreg_tls-1.2.3.so
echo '__thread int number; int one(void) { return number++; }' > thread.c
for at in 1 2 3 4 5 6 7 8; do
    (ended plain/rlibreg-gcc -shared -o plain/lib$at.so thread.c > plain/said$at) &
done
wait
for at in 1 2 3 4 5 6 7 8; do
    want 'without the plugin' "$gcc: plain/lib$at.so: refused C1 E11 TlsSegment: thread-local data: $plain_hint
= 1" "$(cat plain/said$at)"
done
want 'without the plugin: what is left' '' "$(compgen -G 'plain/lib[0-9].so' || true)"

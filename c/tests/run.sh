#!/usr/bin/env bash
# run.sh FOLDER RLIBREG [OBJECTS] tests the C library that build.sh has put into FOLDER, together with
# the program RLIBREG. For that, it compiles the C side again, with the sanitizers of addresses and of
# undefined behaviour, which check only the C code. A later run with the same folder OBJECTS, but with
# proved calls that another compiler has made, uses these C objects again. CC is as for build.sh: with
# musl-gcc there is no sanitizer, undefined behaviour ends a test, and Python and gdb are left out.
set -eu
here=$(cd "$(dirname "$0")" && pwd)
built=$(cd "$1" && pwd)
rlibreg=$(cd "$(dirname "$2")" && pwd)/$(basename "$2")
data=$here/../../crates/cases/data
# Uses a disk in memory if there is one from which programs can be run: a sync takes no time there.
for place in /dev/shm "${TMPDIR:-/tmp}"; do
    room=$(mktemp -d -p "$place" 2> /dev/null) || continue
    cp "$(type -P true)" "$room/"
    "$room/true" 2> /dev/null && break
    rm -rf "$room"
done
trap 'rm -rf "$room"' EXIT

if [ -n "${CC:-}" ]; then
    behind="-idirafter /usr/include -idirafter /usr/include/$(gcc -print-multiarch)"
    gcc() { command $CC "$@" $behind; }
fi
musl=
gcc -E -dM -include stdio.h -x c /dev/null | grep -q __GLIBC__ || musl=yes
flags="-std=c11 -g -Wall -Wextra -Wpedantic -Werror -I$built -I$here/../library -I$here/../loader -I$here/../programs"
sanitizers='-fno-sanitize-recover=all -fsanitize=undefined'
# has_sanitizer NAME: succeeds if a program that is compiled with the sanitizer runs. Otherwise prints
# the reason.
has_sanitizer() {
    gcc -fsanitize="$1" -x c -o "$room/probe" - <<< 'int main(void) { return 0; }' && "$room/probe"
}
if has_sanitizer address 2> "$room/lost"; then
    checked="$flags -O1 $sanitizers,address"
else
    sanitizers="$sanitizers -fsanitize-undefined-trap-on-error"
    checked="$flags -O1 $sanitizers"
fi
# error_text NUMBER: prints the C library's text for an errno.
error_text() {
    printf '#include <stdio.h>\n#include <string.h>\nint main(void) { return puts(strerror(%d)) < 0; }\n' "$1" |
        gcc -x c -o "$room/probe" -
    "$room/probe"
}
wraps=-Wl,--wrap=malloc,--wrap=calloc,--wrap=realloc
objects=$(realpath -m "${3:-$room/objects}")
# compiled NAME FLAGS FILE..: compiles C files to objects in the folder NAME.
compiled() {
    [ ! -d "$objects/$1" ] || return 0
    mkdir -p "$objects/$1"
    (cd "$objects/$1" && gcc $2 -c "${@:3}")
}
library=$(echo "$here"/../library/*.c)
compiled library "$checked" $library
beside="$objects/library/*.o $built/librlibreg.a"
watched=$(printf ',--wrap=%s' open openat fstat stat fstatat fstatfs lseek nanosleep clock_gettime \
    flock sync_file_range fsync fcntl pread ioctl posix_fadvise mincore mmap ftruncate pwrite \
    linkat syscall renameat unlink unlinkat fstatvfs fremovexattr madvise pthread_atfork)
watched="-Wl$watched $objects/tests/watched.o"
plain='tool calls together cuts turns'
over_watched='opening streams place front making forked contents findings updates'
compiled tests "$checked" $(printf "$here/library/%s.c " watched faults $plain $over_watched)
for name in $plain; do gcc $checked -o "$room/$name" "$objects/tests/$name.o" $beside; done
for name in faults $over_watched; do
    wrapped=
    if [ $name = faults ]; then wrapped=$wraps; fi
    gcc $checked $wrapped -o "$room/$name" "$objects/tests/$name.o" $watched $beside
done
# With the sanitizer of addresses a program can't be mapped at each address, so the loader has only that
# of undefined behaviour.
loader="$flags -O1 $sanitizers"
compiled loader "$loader" "$here"/../loader/rlibreg_run*.c "$here/../programs/rlibreg_stack.c" $library
gcc $loader -o "$room/rlibreg-run" -Wl,--build-id=sha1 "$objects"/loader/*.o "$built/librlibreg.a"
taking=-Wl,--wrap=mmap,--wrap=kernel_map,--wrap=rlibreg_bind
gcc $loader -o "$room/run-taken" $taking "$here/loader/taken.c" "$objects"/loader/*.o \
    "$built/librlibreg.a"
gcc $flags -o "$room/within" "$here/loader/within.c"
# Three loaders that keep images without a wait. The first has the id of the build, and is also used for
# each start of the loader's tests. The second has the id of another build, and the third has no id.
keeping=$taking$(printf ',--wrap=%s' kernel_clock kernel_read kernel_advise openat fchmod writev fdatasync \
    linkat unlinkat)
build_id=0x$(readelf -nW "$built/rlibreg-run" | sed -n 's/.*Build ID: //p')
for build in run-kept:$build_id run-kept-other:0x0123456789abcdef run-kept-none:none; do
    gcc $loader -o "$room/${build%:*}" $keeping -Wl,--build-id=${build#*:} "$here/loader/keeping.c" \
        "$here/loader/taken.c" "$objects"/loader/*.o "$built/librlibreg.a"
done
compiled kept "$checked" "$here/loader/kept.c" "$here"/../loader/rlibreg_run_{kernel,key,kept_file}.c
gcc $checked -o "$room/kept-files" -Wl,--wrap=has_fixed_bases,--build-id=0x0102030405060708090a \
    "$objects"/kept/*.o

cd "$room"
. "$here/want.sh"
want 'other names that the archive defines' '' \
    "$(nm -g --defined-only "$built/librlibreg.a" | awk 'NF == 3 && $3 !~ /^(rlibreg|rattle)_/')"
given=("$data/strong.so" "$data/protected.so" "$data/program-1.so" b)
given+=("$(sha256sum < "$data/strong.so" | cut -d ' ' -f 1)")
"$room/calls" "${given[@]}"
gcc $flags -O1 -o "$room/calls" "$here/library/calls.c" "$built/librlibreg.a"
(ulimit -s 512 && "$room/calls" "${given[@]}")
"$room/together" "${given[@]:0:2}" "$data/long.so"
# alone NAME WORD..: runs a test in a folder of its own.
alone() {
    mkdir $1.files
    (cd $1.files && "$room/$1" "${@:2}")
}
alone faults "$data/strong.so" "$data/protected.so" "$data/program-1.so" b "$data/old-one.disk"
alone opening "$data/strong.so" b
alone streams "$data/strong.so" b
alone place "$data/strong.so" b
alone front
alone making "$data/strong.so" b
alone turns
# The threads, with the sanitizer of threads, if there is one. This runs only once, because only the C
# side has threads.
if [ -d "$objects/threads" ]; then
    :
elif mkdir "$objects/threads" && has_sanitizer thread 2> lost; then
    gcc $flags -O1 -fsanitize=thread -o threads "$here/library/turns.c" $library "$built/librlibreg.a"
    TSAN_OPTIONS='report_thread_leaks=0 halt_on_error=1' alone threads threads
else
    echo "skipped: the sanitizer of threads ($(head -n 1 lost))"
fi
alone forked "$data/strong.so" "$data/program-1.so" b
alone contents "$data/strong.so" b
alone findings "$data/strong.so" b "$data/old-one.disk"
of_updates=("$data/strong.so" "$data/protected.so" "$data/long.so" "$data/program-1.so")
alone updates "${of_updates[@]}"
# Refused memory. The sanitizer of addresses needs much memory itself.
gcc $flags -O1 -o limited "$here/library/updates.c" "$here/library/watched.c" ${watched%% *} "$built/librlibreg.a"
alone limited "${of_updates[@]}" > told || { cat told; exit 1; }
sed -n '/^skipped/p' told
alone kept-files file
plain=./rlibreg-run bases=8
for part in library/{cuts,same,held,devices,full} loader/{loader,starting,initializers,kept} documents streams; do
    (. "$here/$part.sh")
done
(. "$here/loader/twice.sh")
# Images in the folder OBJECTS, which may be on a disk. This runs only once, because only the C side
# keeps images.
case $(stat -f -c %T "$objects") in
    ext2/ext3 | xfs | btrfs | f2fs)
        if mkdir "$objects/disk" 2> lost; then
            cp tool within rlibreg-run run-* "$objects/disk/"
            (cd "$objects/disk" && . "$here/loader/kept.sh")
        fi
        ;;
    *) echo 'skipped: images in a folder on a disk' ;;
esac

# The files that build.sh has made, as they are: these tests don't compile the library's C again.
for part in library/shared install/{installed,manual} python driver/{driver,constructors}; do
    (. "$here/$part.sh")
done
# The switch of two disks. This runs only once, because it is a script.
if mkdir "$objects/switch" 2> lost; then (. "$here/switch.sh"); fi

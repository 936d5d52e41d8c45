#!/usr/bin/env bash
# cxx.sh [FOLDER [SOURCE]] builds C++'s standard library for rlibreg-g++ into FOLDER (c/out), where
# build.sh has put the driver. The library fits only one version of gcc: that of the gcc which musl-gcc
# starts, or of COMPILER. It is gcc's own library, built for musl from SOURCE, which is a folder with the
# source of that version. By default the source is that of Debian's package gcc-12-source (12 is gcc's
# version), with the updates that Debian's own library has.
#
# The build takes some minutes, and JOBS processes at once (1). It needs musl-tools, g++, make, patch and
# xz.
set -euo pipefail
here=$(cd "$(dirname "$0")" && pwd)
folder=$(cd "${1:-$here/out}" && pwd)
source=${2:-}
[ -z "$source" ] || source=$(cd "$source" && pwd)
soname=libstdc++-rlibreg.so.6
umask 022

fail() {
    echo "c/cxx.sh: $*" >&2
    exit 1
}

type -P musl-gcc > /dev/null || fail 'there is no musl-gcc'
[ -x "$folder/rlibreg-gcc" ] || fail "$folder has no rlibreg-gcc: run c/build.sh first"
compiler=${COMPILER:-$(sed -n 's/.*REALGCC:-\([^}]*\)}.*/\1/p' "$(type -P musl-gcc)")}
compiler=${compiler:-gcc}
version=$("$compiler" -dumpfullversion)
[ "$(g++ -dumpfullversion)" = "$version" ] || fail "there is no g++ of version $version"
room=$(mktemp -d)
trap 'rm -rf "$room"' EXIT

# unpack: puts the parts of gcc's source that the library needs into `$room/source`.
unpack() {
    local packed
    mkdir "$room/source"
    if [ -n "$source" ]; then
        (cd "$source" && cp -R -- * "$room/source")
        return 0
    fi
    packed=$(compgen -G "/usr/src/gcc-${version%%.*}/gcc-$version*.tar.xz") ||
        fail "there is no source of gcc $version: install gcc-${version%%.*}-source, or give its folder"
    tar -xJf "$packed" -C "$room/source" --strip-components=1 --wildcards --no-wildcards-match-slash \
         'gcc-*/'{libstdc++-v3,libgcc,libbacktrace,libiberty,config,include} \
        'gcc-*/'{config*,install-sh,ltmain.sh,move-if-change,mkinstalldirs,missing,compile,depcomp} \
        'gcc-*/'{COPYING*,*.m4,libtool-ldflags,multilib.am,gcc/BASE-VER,gcc/DATESTAMP}
    update "/usr/src/gcc-${version%%.*}/patches/git-updates.diff"
}

# update PATCH: applies the part of Debian's updates that changes the library.
update() {
    [ -f "$1" ] || fail "$1 isn't there"
    awk '/^--- a\//{is_wanted = $2 ~ /^a\/src\/libstdc\+\+-v3\/(include|libsupc\+\+|src|config)\//}
        /^(diff|index) /{next} is_wanted' "$1" > "$room/updates"
    (cd "$room/source" && patch -s -p2 < "$room/updates")
}

# configure_and_make: builds the library as an archive, and its headers. Weak references take nothing out
# of musl's libc.a, so the functions of threads are referred to in the ordinary way.
configure_and_make() {
    local threads=$room/source/libgcc/gthr-posix.h language
    sed -i '0,/#include <pthread.h>/s//#undef GTHREAD_USE_WEAK\n#define GTHREAD_USE_WEAK 0\n&/' "$threads"
    grep -q '^#define GTHREAD_USE_WEAK 0$' "$threads" || fail 'this source of gcc is unknown: gthr-posix.h'
    cp "$threads" "$room/source/libgcc/gthr-default.h"
    for language in "$compiler" g++; do
        printf '#!/bin/sh\nREALGCC=%s exec musl-gcc -fPIC -fno-stack-protector -fno-gnu-unique %s "$@"\n' \
            "$language" "-idirafter '$folder/rlibreg_kernel' '-ffile-prefix-map=$room=.'" \
            > "$room/for_$([ "$language" = g++ ] && echo plus || echo c)"
    done
    chmod +x "$room"/for_*
    mkdir "$room/build"
    cd "$room/build"
    "$room/source/libstdc++-v3/configure" --build=x86_64-linux-gnu --host=x86_64-linux-musl \
        --prefix="$room/made" --disable-multilib --disable-nls --disable-tls --disable-symvers \
        --disable-libstdcxx-pch --enable-libstdcxx-filesystem-ts=no --disable-shared --enable-static \
        --with-pic CC="$room/for_c" CXX="$room/for_plus" AR=ar RANLIB=ranlib AS=as LD=ld NM=nm STRIP=strip CFLAGS=-O2 CXXFLAGS=-O2
    make -j"${JOBS:-1}"
    make install
}

# make_unwinder FILE: makes an archive of gcc's unwinder, whose functions a program may export. In gcc's own
# archive they are hidden, so that each library would have an unwinder with its own data. Here they get other
# names, and functions with their names jump to them. A program has an emulation of thread-local data of its
# own, so gcc's is left out.
make_unwinder() {
    local name
    mkdir "$room/unwinder"
    cp "$("$compiler" -print-file-name=libgcc_eh.a)" "$room/unwinder/all.a"
    chmod u+w "$room/unwinder/all.a"
    ar dD "$room/unwinder/all.a" emutls.o
    nm -g --defined-only "$room/unwinder/all.a" 2> "$room/unwinder/told" |
        sed -n 's/^[0-9a-f]* T //p' | sort -u > "$room/unwinder/names"
    sed 's/.*/& rlibreg_&/' "$room/unwinder/names" > "$room/unwinder/renamed"
    objcopy -D --redefine-syms="$room/unwinder/renamed" "$room/unwinder/all.a" "$1"
    while read -r name; do
        printf '\t.globl %s\n\t.type %s, @function\n%s:\n\t.cfi_startproc\n' "$name" "$name" "$name"
        printf '\tendbr64\n\tjmp rlibreg_%s\n\t.cfi_endproc\n\t.size %s, .-%s\n' "$name" "$name" "$name"
    done < "$room/unwinder/names" > "$room/unwinder/rlibreg_names.s"
    # The unwinder has weak references to these functions, which take nothing out of musl's libc.a.
    printf '\t.section %s\n' '.data.rel.ro,"aw"' >> "$room/unwinder/rlibreg_names.s"
    printf '\t.quad pthread_once, __pthread_key_create\n' >> "$room/unwinder/rlibreg_names.s"
    printf '\t.section %s\n' '.note.GNU-stack,"",@progbits' >> "$room/unwinder/rlibreg_names.s"
    "$compiler" -c -o "$room/unwinder/rlibreg_names.o" "$room/unwinder/rlibreg_names.s"
    ar rD "$1" "$room/unwinder/rlibreg_names.o"
}

# collect: puts the headers, the shared library, gcc's unwinder and the licenses into `$room/new`.
collect() {
    local new=$room/new headers
    mkdir "$new"
    headers=$(compgen -G "$room/made/include/c++/*")
    cp -R "$headers" "$new/include"
    make_unwinder "$new/rlibreg_eh.a"
    cp "$room/source/COPYING3" "$room/source/COPYING.RUNTIME" "$new/"
    "$folder/rlibreg-gcc" -shared -s "-Wl,-soname,$soname" -o "$new/$soname" -Wl,--whole-archive \
        "$room/made/lib/libstdc++.a" -Wl,--no-whole-archive "$folder/rlibreg_each.a"
    chmod -R u+w,go-w,a+rX "$new"
    chmod a-x "$new/$soname"
}

unpack
(configure_and_make) > "$room/log" 2>&1 || {
    tail -n 30 "$room/log" >&2
    fail 'the library could not be built'
}
collect
rm -rf "$folder/rlibreg_cxx-$version"
mv "$room/new" "$folder/rlibreg_cxx-$version"
echo "built $folder/rlibreg_cxx-$version/$soname"

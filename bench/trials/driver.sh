#!/usr/bin/env bash
# driver.sh BUILT  tries rlibreg-gcc of BUILT (c/build.sh) with everything that the gate may lack: gcc's plugin
# for thread-local data and C++'s standard library, which it makes, and trees of folders by libtool and meson.
# It prints what an access to thread-local data costs, and what an exception and a start of a program of C++
# cost. If this machine lacks something, the part that needs it is left out, and a line reports this.
#
# The script needs musl-tools, g++, and for gcc 12 gcc-12-plugin-dev and gcc-12-source; and automake, libtool
# and meson. It uses C++'s library of BUILT, if c/cxx.sh has made it there.
set -eu
cd "$(dirname "$0")/../.."
here=$PWD/c/tests bench=$PWD/bench musl=
room=$(mktemp -d)
trap 'rm -rf "$room"' EXIT
built=$room/built objects=$room/objects
cp -a "$1" "$built"
mkdir "$objects" "$room/tests"
c/plugin.sh "$built"
version=$(gcc -dumpfullversion)
cxx=$built/rlibreg_cxx-$version
if [ ! -d "$cxx" ] && compgen -G "/usr/src/gcc-*/gcc-$version*.tar.xz" > "$room/told"; then
    JOBS=${JOBS:-$(nproc)} c/cxx.sh "$built"
fi
. "$here/want.sh"

# The tests of the driver, with the plugin.
(
    cd "$room/tests"
    for part in driver/{driver,constructors}; do (. "$here/$part.sh"); done
)
PATH=$built:$PATH

# A tree of folders: a program, a library that it needs, and another library that only the first
# library needs.
mkdir "$room/tree" "$room/tree/inner" "$room/tree/outer" "$room/tree/app"
cd "$room/tree"
echo 'int inner(void) { return qsort != 0; }' | sed '1i #include <stdlib.h>' > inner/inner.c
echo 'int inner(void); __thread int count; int outer(void) { return inner() + count++; }' > outer/outer.c
echo 'int outer(void); int main(void) { return outer() * 10 + outer(); }' > app/app.c
# ran WHAT INNER OUTER APP: runs the program from a registry, and where it was built.
ran() {
    rm -f disk
    rlibreg format disk 4096 > told
    rlibreg install disk "$2" > told
    rlibreg install disk "$3" > told
    want "$1" '= 12' "$(ended rlibreg-run disk "$4")"
    want "$1, where it was built" '= 12' "$(LD_LIBRARY_PATH=${2%/*}:${3%/*} ended "$4")"
    echo "$1: built and run"
}

if command -v autoreconf > told && command -v libtoolize > told; then
    printf '%s\n' 'AC_INIT([tree],[1])' 'AM_INIT_AUTOMAKE([foreign subdir-objects])' 'AM_PROG_AR' \
        'LT_INIT([disable-static])' 'AC_PROG_CC' 'AC_SEARCH_LIBS([dlopen],[dl],,[exit 1])' \
        'AC_CONFIG_FILES([Makefile])' AC_OUTPUT > configure.ac
    printf '%s\n' 'lib_LTLIBRARIES = libinner.la libouter.la' 'libinner_la_SOURCES = inner/inner.c' \
        'libouter_la_SOURCES = outer/outer.c' 'libouter_la_LIBADD = libinner.la' 'bin_PROGRAMS = program' \
        'program_SOURCES = app/app.c' 'program_LDADD = libouter.la' > Makefile.am
    { autoreconf -fi && ./configure CC=rlibreg-gcc && make; } > log 2>&1 || { tail log; exit 1; }
    ran libtool ./.libs/libinner.so.0 ./.libs/libouter.so.0 ./.libs/program
else
    echo 'left out: libtool, which is not here'
fi
if command -v meson > told && command -v ninja > told; then
    printf '%s\n' "project('tree', 'c')" "subdir('inner')" "subdir('outer')" "subdir('app')" > meson.build
    echo "inner = shared_library('inner', 'inner.c')" > inner/meson.build
    echo "outer = shared_library('outer', 'outer.c', link_with: inner)" > outer/meson.build
    echo "executable('app', 'app.c', link_with: outer, dependencies: dependency('dl'))" > app/meson.build
    { CC=rlibreg-gcc meson setup made && ninja -C made; } > log 2>&1 || { tail log; exit 1; }
    ran meson ./made/inner/libinner.so ./made/outer/libouter.so ./made/app/app
else
    echo 'left out: meson, which is not here'
fi

rlibreg-gcc -O2 -o accesses "$bench/trials/accesses.c"
echo "emulated, in nanoseconds: $(rlibreg-run disk ./accesses)"
musl-gcc -O2 -static -o accesses "$bench/trials/accesses.c"
echo "not emulated: $(./accesses)"

# The cost of an exception, in the program and through libraries, and of a start.
if [ -d "$cxx" ]; then
    rm -f disk
    rlibreg format disk 16384 > told
    rlibreg install disk "$cxx/libstdc++-rlibreg.so.6"
    rlibreg-g++ -O2 -DLIBRARY -shared -o libthrows.so "$bench/trials/throws.cc"
    rlibreg install disk libthrows.so
    rlibreg-g++ -O2 -o throws "$bench/trials/throws.cc" libthrows.so
    echo "exceptions, in nanoseconds: $(rlibreg-run disk ./throws)"
    g++ -O2 -DLIBRARY -fPIC -shared -o libthrows.so "$bench/trials/throws.cc"
    g++ -O2 -o throws_here "$bench/trials/throws.cc" -L. -lthrows
    echo "of the system's C++: $(LD_LIBRARY_PATH=. ./throws_here)"
    # starts WORD..: prints how many microseconds a start takes, of 200.
    starts() {
        local from=$EPOCHREALTIME at to
        for ((at = 0; at < 200; at++)); do "$@" > told; done
        to=$EPOCHREALTIME
        echo $(((${to/./} - ${from/./}) / 200))
    }
    mkdir -m 700 images
    rlibreg-tool executable disk throws 0x10000000 > alone
    chmod +x alone
    echo "a start, in microseconds: by rlibreg-run $(starts rlibreg-run disk ./throws 0)," \
        "with -c $(starts rlibreg-run -c images disk ./throws 0), as an executable $(starts ./alone 0)," \
        "of the system's C++ $(LD_LIBRARY_PATH=. starts ./throws_here 0)"
else
    echo "left out: C++'s standard library, which c/cxx.sh makes"
fi

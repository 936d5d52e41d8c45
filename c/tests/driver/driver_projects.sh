# A part of driver.sh: tests the requests of projects while they are built: the C library in each
# spelling, libraries of gcc and of the system, libraries that only other libraries need, headers of the
# kernel, coverage, and the commands of build systems for a tree of folders.

# needs FILE: prints the names of the libraries that FILE needs.
needs() {
    readelf -dW "$1" | sed -n 's/.*(NEEDED).*\[\(.*\)\]$/\1/p' | sort | tr '\n' ' '
}
# runs FILE: runs FILE from the registry `disk`, and prints its output and its status.
runs() { ended "$built/rlibreg-run" disk "./$1"; }

mkdir tree tree/inner tree/outer tree/app
cat > tree/inner/inner.c << 'END_OF_FILE'
#include <stdlib.h>
static int compare(const void *one, const void *other) { return *(const int *)one - *(const int *)other; }
int least(int *of, int count) {
    qsort(of, count, sizeof *of, compare);
    return of[0];
}
END_OF_FILE
cat > tree/outer/outer.c << 'END_OF_FILE'
int least(int *, int);
int outer(void) {
    int of[] = {7, 5, 6};
    return least(of, 3);
}
END_OF_FILE
cat > tree/app/app.c << 'END_OF_FILE'
#include <math.h>
#include <stdio.h>
int outer(void);
int main(int count, char **words) {
    (void)words;
    return printf("%d %.3f\n", outer(), sin(count)) < 0;
}
END_OF_FILE
cd tree
ln -s ../disk disk
ran='5 0.841
= 0'

# The C library, in each spelling, before and after the files: no file needs a C library.
for words in -lc '-l c' -Wl,-lc '-Wl,-l -Wl,c' '-Xlinker -lc' -Wl,-z,now,-lc -Wl,--library=c \
    -Wl,--library,c '-Wl,-Bstatic -lc -Wl,-Bdynamic' '-nodefaultlibs -lc' '-nolibc -Wl,-lc'; do
    $gcc $words -shared -o libinner.so inner/inner.c $words
    want "$words: a library" '' "$(needs libinner.so)"
    $gcc $words -o one -x c - -x none libinner.so $words <<< \
        'int least(int *, int); int main(void) { int of[] = {3, 2}; return least(of, 2); }'
    want "$words: a program" 'libinner.so ' "$(needs one)"
    "$built/rlibreg" install disk libinner.so > told || "$built/rlibreg" replace disk libinner.so > told
    want "$words: run" '= 2' "$(runs one)"
done
echo -lc > words
$gcc -shared -o libinner.so inner/inner.c -Wl,@words
want 'a file of words for the linker' '' "$(needs libinner.so)"
want 'no C library' 'collect2: error: ld returned 1 exit status
= 1' "$(ended $gcc -nodefaultlibs -o one -x c - <<< 'int puts(); int main(void) { return puts(""); }' |
    tail -n 2)"

# A shared library of gcc's own is needed only if it is used, and the system's C library is never
# needed.
$gcc -lgcc_s -o one -x c - -lgcc_s <<< 'int main(void) { return 0; }'
words=-lgcc_s
for file in "$(dirname "$(gcc -print-libgcc-file-name)")"/lib{atomic,gomp,itm,quadmath}.so; do
    [ ! -e "$file" ] || words="$words -l$(basename "${file#*/lib}" .so | sed 's/^lib//')"
done
for file in /usr/lib/*-linux-gnu/lib{c,m,dl,pthread,rt,util}.{a,so}; do
    [ ! -e "$file" ] || words="$words $file -L${file%/*}"
done
sed -i 's/outer()/5/; /^int outer/d' app/app.c
for linker in $linkers; do
    $gcc -fuse-ld=$linker $words -o app/app app/app.c $words -lm -lrt
    want "$linker $words: what is needed" '' "$(needs app/app)"
    want "$linker $words: run" "$ran" "$(runs app/app)"
done
sed -i 's/, 5,/, outer(),/; s/^int main/int outer(void);\n&/' app/app.c

# A library that only another library needs, and that nobody names. This library uses the program's
# qsort.
build_tree() { # LINKER
    $gcc -fuse-ld=$1 -shared -o inner/libinner.so inner/inner.c
    $gcc -fuse-ld=$1 -shared -o outer/libouter.so outer/outer.c -Linner -linner
}
for linker in $linkers; do build_tree $linker; done
"$built/rlibreg" replace disk inner/libinner.so > told
"$built/rlibreg" install disk outer/libouter.so > told
for words in outer/libouter.so '-Louter -louter'; do
    for beside in -Linner '-L inner' -Wl,-rpath-link,inner -Wl,-rpath,$PWD/inner; do
        $gcc -o app/app app/app.c $words $beside
        want "$words $beside: what is needed" 'libouter.so ' "$(needs app/app)"
        want "$words $beside: run" "$ran" "$(runs app/app)"
    done
done
cp inner/libinner.so outer
$gcc -o app/app app/app.c outer/libouter.so
want 'a library beside the one that needs it' "$ran" "$(runs app/app)"
rm outer/libinner.so
lacking="libouter.so: undefined reference to \`least'
collect2: error: ld returned 1 exit status
= 1"
echo old > app/app
want 'a library that is nowhere' "$lacking" \
    "$(ended $gcc -o app/app app/app.c outer/libouter.so | tail -n 3 | sed 's/.*libouter/libouter/')"
want 'a library that is nowhere: what is left' '' "$(ls app | grep -x app || true)"
$gcc -shared -o inner/libinner.so -x c - <<< 'int least(int *of, int count) { return nobody(of, count); }' \
    2> told
want 'a name that nobody has' "libinner.so: undefined reference to \`nobody'
collect2: error: ld returned 1 exit status
= 1" "$(ended $gcc -o app/app app/app.c outer/libouter.so -Linner | tail -n 3 | sed 's/.*libinner/libinner/')"
build_tree bfd

# Headers of the kernel, one from each folder that this machine has.
for header in mtd/mtd-user.h sound/asound.h video/edid.h misc/pvpanic.h rdma/ib_user_verbs.h \
    xen/evtchn.h drm/drm.h scsi/scsi_bsg_fc.h linux/fs.h asm/types.h asm-generic/types.h; do
    [ -e "/usr/include/$header" ] || continue
    echo "#include <$header>" | $gcc -E -x c - > told 2>&1 || { cat told; exit 1; }
done
want "musl's own header of that folder" "$(echo '#include <scsi/sg.h>' | musl-gcc -E -x c -)" \
    "$(echo '#include <scsi/sg.h>' | $gcc -E -x c -)"

# Coverage, of a program and its library.
mkdir covered
(
    cd covered
    $gcc --coverage -shared -o libinner.so -x c ../inner/inner.c
    $gcc -fprofile-arcs -ftest-coverage -shared -o libouter.so ../outer/outer.c libinner.so
    $gcc --coverage -o app ../app/app.c libouter.so libinner.so -lm
    "$built/rlibreg" format disk 2048 > told
    "$built/rlibreg" install disk libinner.so > told
    "$built/rlibreg" install disk libouter.so > told
    want 'coverage: run' "$ran" "$(runs app)"
    want 'coverage: counts of' 'app-app.gcda libinner.so-inner.gcda libouter.so-outer.gcda ' \
        "$(echo *.gcda) "
)

# pkg-config, for an installed library that needs another installed library.
if command -v pkg-config > told; then
    mkdir -p installed/lib/pkgconfig installed/inner
    build_tree bfd
    cp outer/libouter.so installed/lib
    cp inner/libinner.so installed/inner
    printf '%s\n' "Name: inner" 'Description: inner' 'Version: 1' "Libs: -L$PWD/installed/inner -linner" \
        > installed/lib/pkgconfig/inner.pc
    printf '%s\n' "Name: outer" 'Description: outer' 'Version: 1' "Libs: -L$PWD/installed/lib -louter" \
        'Requires.private: inner' 'Libs.private: -lm' > installed/lib/pkgconfig/outer.pc
    for static in '' --static; do
        $gcc -o app/app app/app.c $(PKG_CONFIG_LIBDIR=installed/lib/pkgconfig PKG_CONFIG_PATH= \
            PKG_CONFIG_SYSROOT_DIR= pkg-config $static --libs outer) -Linstalled/inner
        want "pkg-config $static" "$ran" "$(runs app/app)"
    done
else
    echo 'skipped: pkg-config, which is not here'
fi

# The options of meson and of libtool.
$gcc -o app/app app/app.c -Wl,--as-needed -Wl,--no-undefined -Wl,-O1 \
    '-Wl,-rpath,$ORIGIN/../outer:$ORIGIN/../inner' -Wl,-rpath-link,$PWD/outer -Wl,-rpath-link,$PWD/inner \
    -Wl,--start-group outer/libouter.so -lm -ldl -Wl,--end-group -pthread
want 'meson' "$ran" "$(runs app/app)"
$gcc -shared -fPIC -DPIC outer/outer.c -Wl,-rpath -Wl,$PWD/inner inner/libinner.so -O2 -Wl,-soname \
    -Wl,libouter.so -o outer/libouter.so
$gcc -o app/app app/app.c -O2 outer/libouter.so $PWD/inner/libinner.so -lm -Wl,-rpath -Wl,/usr/local/lib
want 'libtool' "$ran" "$(runs app/app)"

# CMake: a part of the system's C library that it names by a path, and a library that only another
# library needs.
if command -v cmake > told; then
    cat > CMakeLists.txt << 'END_OF_FILE'
cmake_minimum_required(VERSION 3.13)
project(tree C)
find_library(MATH m)
add_subdirectory(outer)
add_subdirectory(inner)
add_subdirectory(app)
END_OF_FILE
    math=$(compgen -G '/usr/lib/*-linux-gnu/libm.so' || echo m)
    echo 'add_library(inner SHARED inner.c)' > inner/CMakeLists.txt
    printf '%s\n' 'add_library(outer SHARED outer.c)' 'target_link_libraries(outer PRIVATE inner)' \
        > outer/CMakeLists.txt
    printf '%s\n' 'add_executable(app app.c)' 'target_link_libraries(app outer ${MATH} dl pthread)' \
        > app/CMakeLists.txt
    CFLAGS= LDFLAGS= cmake -S . -B made -DCMAKE_C_COMPILER=$gcc -DMATH="$math" > told 2>&1 || { cat told; exit 1; }
    cmake --build made > told 2>&1 || { cat told; exit 1; }
    for name in inner outer; do "$built/rlibreg" replace disk made/$name/lib$name.so > told; done
    want 'CMake' "$ran" "$(runs made/app/app)"
    if [ -e /usr/lib/x86_64-linux-musl/libm.a ]; then
        cmake -S . -B searched -DCMAKE_C_COMPILER=$gcc -DCMAKE_LIBRARY_ARCHITECTURE=x86_64-linux-musl \
            > told 2>&1 || { cat told; exit 1; }
    fi
else
    echo 'skipped: CMake, which is not here'
fi
cd ..

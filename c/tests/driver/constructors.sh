# Tests what libraries and programs of rlibreg-gcc may do before and after main. Each program runs in four
# ways: under rlibreg-run, from a kept image, as an executable file, and under musl's loader where it is
# built. The expected outputs are written by hand.

if ! command -v musl-gcc > /dev/null; then
    echo 'skipped: constructors, which need the musl-gcc of musl-tools'
    exit 0
fi
[ ! -d "$objects/constructors" ] || exit 0 # once: the driver isn't what the two compilers make
mkdir "$objects/constructors"
PATH=$built:$PATH
mkdir constructors constructors/kept
chmod 700 constructors/kept
cd constructors
cp "$here"/programs/{named,named_main,busy,busy_main}.c "$here"/programs/driver_* .
gcc=rlibreg-gcc
"$built/rlibreg" format disk 32768 > /dev/null
ways='loader executable'

# library NAME FILE WORD..: makes libNAME.so, and installs it, or replaces the installed library of
# this name.
library() {
    local name=$1
    $gcc -shared -o "lib$name.so" "${@:2}"
    "$built/rlibreg" install disk "lib$name.so" > told ||
        "$built/rlibreg" replace disk "lib$name.so" > told || { cat told; exit 1; }
}

# by WAY PROGRAM WORD..: runs PROGRAM in the way WAY, and prints its output and its status.
by() {
    case $1 in
        loader) ended "$built/rlibreg-run" disk "./$2" "${@:3}" ;;
        kept) ended "$built/rlibreg-run" -v -c kept disk "./$2" "${@:3}" ;;
        executable)
            rm -f alone
            if "$built/rlibreg-tool" executable disk "$2" 0x10000000 > alone; then
                chmod +x alone
                ended ./alone "${@:3}"
            fi
            ;;
        built) LD_LIBRARY_PATH=. ended "./$2" "${@:3}" ;;
    esac
}

# says WHAT WANTED PROGRAM WORD..: checks that PROGRAM has the output and the status WANTED in each
# way.
says() {
    local way
    for way in $ways; do want "$1, $way" "$2" "$(by $way "${@:3}")"; done
}

# Libraries that need each other in a circle: their functions are called from `b` on, the last
# library that is read. The program's own functions follow.
for name in a b d; do
    $gcc -DNAME="\"$name\"" -DFUNCTION=$name -c -o $name.o named.c
    $gcc -shared -o lib$name.so $name.o
done
needs=-Wl,--no-as-needed
library a a.o $needs libb.so
library b b.o $needs libd.so
library d d.o $needs liba.so
$gcc -o named named_main.c $needs liba.so libb.so -Wl,-rpath-link,.
if [ -x "$(readelf -lW named | sed -n 's/.*interpreter: \(.*\)\]/\1/p')" ]; then
    ways="$ways built"
else
    echo "skipped: constructors where they are built, for want of musl's loader"
fi
says 'a circle, from d, the last that is read' 'before +b +a +d +main 11 -main -d -a -b = 4' named
"$built/rlibreg" preload disk libd.so libb.so > told
ways=${ways% built} # it has other words for preloads
says 'preloads' 'before +d +b +a +main 11 -main -a -b -d = 4' named
"$built/rlibreg" preload disk > told

# A constructor may use memory, variables and threads, make a child, and end the process.
library busy busy.c
$gcc -o busy busy_main.c libbusy.so
export GIVEN=given
says 'a busy constructor' 'child 9 main 2 word 41 given given main ends busy ends
= 5' busy word
EXIT=7 says 'a constructor that ends the process' 'child 9 main ends = 7' busy word

# The next version of a library has initializers; a program that was linked before calls them.
echo 'int later(void) { return 6; }' > later.c
library later later.c
echo 'int later(void); int main(void) { return later(); }' > main.c
$gcc --whole-libc -o later main.c liblater.so
says 'no initializers' '= 6' later
cat > later.c << 'EOF'
#include <stdlib.h>
static int *number;
__attribute__((visibility("hidden"))) void first(void) { *(number = malloc(sizeof *number)) = 60; }
__attribute__((constructor)) static void begin(void) { number = realloc(number, 8192); ++*number; }
int later(void) { return *number; }
EOF
library later later.c -Wl,-init,first
says 'initializers in the next version' '= 61' later

# A destructor that calls `exit` while the process ends: each destructor is still called exactly
# once.
cat > again.c << 'EOF'
#include <stdio.h>
#include <stdlib.h>
__attribute__((destructor(201))) static void last(void) { printf("last\n"); }
__attribute__((destructor(202))) static void again(void) { printf("again "); exit(9); }
__attribute__((destructor(203))) static void first(void) { printf("first "); }
EOF
library again again.c
echo 'int main(void) { return 0; }' > main.c
$gcc -o again main.c $needs libagain.so
says 'a destructor that ends the process' 'first again last
= 9' again

# Libraries with units of 4 KiB, 64 KiB and 1 MiB.
for size in 0x1000 0x10000 0x100000; do
    echo "int of_$size(void) { return 1; }" > plain.c
    $gcc -DNAME="\"$size\"" -DFUNCTION=said_$size -shared -Wl,-z,max-page-size=$size -o libwide$size.so named.c
    library wide$size named.c -DNAME="\"$size\"" -DFUNCTION=said_$size -Wl,-z,max-page-size=$size
    library plain$size plain.c
done
echo 'int main(void) { return 0; }' > main.c
$gcc -o wide main.c $needs lib{wide,plain}{0x10000,0x100000,0x1000}.so
says 'units' '+0x1000 +0x100000 +0x10000 -0x10000 -0x100000 -0x1000 = 0' wide

# Each linker keeps the object at which the program begins, even with options that remove unused
# parts.
for linker in bfd gold lld; do
    command -v ld.$linker > told || continue
    for words in '' '-ffunction-sections -Wl,--gc-sections -s' '-Wl,-z,now,--build-id,-Bsymbolic'; do
        $gcc -fuse-ld=$linker $words -o linked named_main.c $needs liba.so libb.so -Wl,-rpath-link,.
        says "$linker $words" 'before +b +a +d +main 11 -main -d -a -b = 4' linked
    done
done

# Static objects in C++.
if command -v g++ > told; then
    rlibreg-g++ -nostdlib++ -shared -o libbase.so driver_base.cc
    rlibreg-g++ -nostdlib++ -shared -o libderived.so driver_derived.cc libbase.so
    rlibreg-g++ -nostdlib++ -o shapes driver_shapes.cc libderived.so libbase.so
    for name in base derived; do "$built/rlibreg" install disk lib$name.so > told; done
    says 'C++' "$(cat driver_shapes.txt)
= 0" shapes
else
    echo 'skipped: constructors in C++, for want of g++'
fi

# A program that is linked with another entry begins at that entry, and its file has no promise.
for words in '-e first' -efirst --entry=first '--entry first'; do
    $gcc -o entered main.c -Wl,${words/ /,} -x c - <<< 'void _start(void); void first(void) { _start(); }'
    want "$words" '' "$(readelf -nW entered | grep rlibreg || true)"
done
$gcc -rdynamic -o entered main.c -Wl,-enable-new-dtags,-exclude-libs,ALL
want 'words that are no entry' 1 "$(readelf -nW entered | grep -c 'rlibreg ')"

# wrong WHAT WANTED WORD..: checks that the driver refuses to link such a library, with the message
# WANTED.
wrong() {
    want "$1" "$gcc: output: $2
= 1" "$(ended $gcc -shared -o output "${@:3}")"
    [ ! -e output ]
}
wrong 'a library that comes first' "its constructors would come before the program's C library: link \
without -z initfirst" later.c -Wl,-z,initfirst
wrong 'headers elsewhere' "its memory doesn't begin with its headers: link without -Ttext-segment, or \
a linker script" later.c -Wl,-Ttext-segment=0x10000

# Libraries of these kinds that another driver has linked, and a library whose array names a
# function of another library.
other='gcc -fPIC -shared -nostdlib -fno-stack-protector -Wl,--hash-style=sysv'
$other -DNAME='"first"' -DFUNCTION=of_first -Wl,-z,initfirst,-soname,libfirst.so -o libfirst.so named.c
$other -Wl,-Ttext-segment=0x10000,-soname,libhigh.so -o libhigh.so plain.c
echo '__attribute__((constructor)) void same(void) {} ' > same.c
library one same.c
library two same.c
for name in first high; do "$built/rlibreg" install disk lib$name.so > told; done
$gcc -o high main.c $needs libhigh.so
want 'headers elsewhere, by the loader' '= 0' "$(by loader high)"
for way in executable $(tr ' ' '\n' <<< "$ways" | grep built); do
    want "headers elsewhere, $way" "rlibreg: not found, or its memory doesn't begin with its headers: \
libhigh.so
= 127" "$(by $way high)"
done
$gcc -o same main.c $needs libone.so libtwo.so
want 'the function of another' "rlibreg-run: libtwo.so: DT_INIT_ARRAY names a function that isn't in its \
own code
= 125" "$(by loader same)"
for way in executable $(tr ' ' '\n' <<< "$ways" | grep built); do
    want "the function of another, $way" "rlibreg: libtwo.so: DT_INIT_ARRAY names a function that isn't in \
its own code
= 125" "$(by $way same)"
done

# Starts from kept images, once the files are two seconds old.
sleep 2.1
for program in named 'busy word'; do
    by kept $program > told
    said=$(by loader $program)
    want "$program, kept" "rlibreg-run: kept: its image is taken
$said" "$(by kept $program)"
done
cd ..
echo "constructors: before main and behind it, of libraries and programs by rlibreg-gcc: as written"

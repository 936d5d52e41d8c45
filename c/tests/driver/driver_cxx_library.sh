# A part of driver_cxx.sh: tests programs of C++ with its standard library.

mkdir cxx
cd cxx
cp "$programs"/driver_cxx* .
defined=
if [ -f "$plugin" ]; then
    defined=-DHAS_THREAD_LOCAL
else
    echo 'left out: thread_local of C++, for want of the plugin'
fi
wanted="$(cat driver_cxx.txt)
= 0"
# installed DISK FILE..: installs or replaces libraries.
installed() {
    local name
    for name in "${@:2}"; do
        "$built/rlibreg" replace "$1" "$name" > told 2>&1 || "$built/rlibreg" install "$1" "$name" > told
    done
}
"$built/rlibreg" format disk 16384 > told
installed disk "$cxx/$soname"

# builds WORD..: builds the libraries, the module and the program with these words.
builds() {
    $plus "$@" $defined -shared -o libone.so driver_cxx_one.cc
    $plus "$@" -shared -o libtwo.so driver_cxx_two.cc libone.so
    $plus "$@" -shared -o libmodule.so driver_cxx_module.cc libone.so
    $plus "$@" -Wall -Wextra -o program driver_cxx.cc --module libmodule.so libtwo.so libone.so
    installed disk libone.so libtwo.so libmodule.so
}
# starts WHAT: starts the program in each way, and compares its output.
starts() {
    want "$1" "$wanted" "$(ended "$built/rlibreg-run" disk ./program)"
    "$built/rlibreg-tool" executable disk program 0x10000000 > alone
    chmod +x alone
    want "$1: an executable" "$wanted" "$(ended ./alone)"
    rm -rf images
    mkdir -m 700 images
    # An image isn't kept just after a change of the disk.
    for ((at = 0; at < 100; at++)); do
        want "$1: before an image is kept" "$wanted" "$(ended "$built/rlibreg-run" -c images disk ./program)"
        [ -z "$(ls images)" ] || break
        sleep 0.1
    done
    want "$1: the number of kept images" 1 "$(ls images | wc -l)"
    want "$1: a kept image" "$wanted" "$(ended "$built/rlibreg-run" -c images disk ./program)"
}
for linker in $linkers; do
    for words in -O2 '-O0 -g' '-O2 -flto=auto -ffat-lto-objects'; do
        builds -fuse-ld=$linker $words
        starts "$linker $words"
    done
done
builds -std=c++20 -static-libgcc -static-libstdc++
starts 'with a static libgcc'
want 'the unwinders of libraries' '' "$(nm libone.so libtwo.so | grep ' [Tt] _Unwind' || true)"
if [ -x "$(readelf -lW program | sed -n 's/.*interpreter: \(.*\)\]/\1/p')" ]; then
    want 'where it is built' "$wanted" "$(LD_LIBRARY_PATH=.:$cxx ended ./program)"
fi

# A program is linked by the driver of C, and needs the library only through another library.
for linker in $linkers; do
    $gcc -O2 -fuse-ld=$linker -c driver_cxx.cc
    $gcc -fuse-ld=$linker -o program -lstdc++ driver_cxx.o --module libmodule.so libtwo.so libone.so
    starts "$linker, linked by $gcc"
done
echo 'extern "C" int caught() { try { throw 5; } catch (int it) { return it; } }' > caught.cc
echo 'int caught(void); int main(void) { return caught(); }' > calls.c
$plus -shared -o libcaught.so caught.cc
installed disk libcaught.so
$gcc -o calls calls.c libcaught.so
want 'what a program of C needs' 'libcaught.so ' "$(needs calls)"
want 'a program of C' '= 5' "$(ended "$built/rlibreg-run" disk ./calls)"
echo 'int main() { return 6; }' > six.cc
for linker in ${linkers/gold/}; do # gold takes a library for needed if musl has functions for it
    $plus -fuse-ld=$linker -o six six.cc
    want "$linker: what a program needs that needs nothing" '' "$(needs six)"
done

# Exceptions pass through the functions of a library of C, and a constructor may throw.
cat > through.c << 'END_OF_FILE'
#include <stdio.h>
static void clean(const int *it) { printf("cleaned up %d\n", *it); }
int through(int (*call)(int), int with) {
    __attribute__((cleanup(clean))) int own = with + 2;
    return call(with) + own;
}
END_OF_FILE
$gcc -O2 -fexceptions -shared -o libthrough.so through.c
installed disk libthrough.so
cat > passes.cc << 'END_OF_FILE'
#include <cstdio>
#include <cstdlib>
#include <exception>
extern "C" int through(int (*)(int), int);
struct early {
    early() {
        try { throw 1; } catch (int it) { std::printf("early %d\n", it); }
    }
} early;
int main(int count, char **) {
    try {
        return through([](int with) -> int { throw with; }, 4);
    } catch (int it) {
        std::printf("through %d\n", it);
    }
    std::set_terminate([] { std::puts("terminated"); std::exit(9); });
    int of[] = {2, 1};
    if (count > 1) std::qsort(of, 2, sizeof *of, [](const void *, const void *) -> int { throw 1; });
    return 3;
}
END_OF_FILE
$plus -O2 -o passes passes.cc libthrough.so
want 'through C' 'early 1
cleaned up 6
through 4
= 3' "$(ended "$built/rlibreg-run" disk ./passes)"
want "through musl's qsort" 'early 1
cleaned up 6
through 4
terminated
= 9' "$(ended "$built/rlibreg-run" disk ./passes more)"
echo '#include <stdexcept>
static struct it { it() { throw std::runtime_error("too early"); } } it; int one() { return 1; }' > throws.cc
$plus -shared -o libthrows.so throws.cc
installed disk libthrows.so
$plus -o early -x c++ - -x none libthrows.so <<< 'int one(); int main() { return one(); }'
want 'a constructor that throws' "terminate called after throwing an instance of 'std::runtime_error'
  what():  too early
= 134" "$(ended "$built/rlibreg-run" disk ./early)"

# Objects that were compiled without the library may be mixed in, and so may a library of such objects.
echo 'struct base { virtual ~base() {} virtual int is() = 0; };
inline int *counter() { static int *it = new int(7); return it; }
base *make(); int throws(int);' > mixed.h
echo '#include "mixed.h"
struct own : base { int is() { return ++*counter(); } }; base *make() { return new own; }' > plain.cc
echo '#include "mixed.h"
#include <string>
int throws(int it) { if (it) throw std::to_string(it); return ++*counter(); }' > full.cc
echo '#include "mixed.h"
#include <string>
int main() { base *it = make(); int sum = it->is() + throws(0); delete it;
    try { throws(5); } catch (const std::string &text) { return sum + std::stoi(text); } }' > mixed.cc
$plus -nostdlib++ -c plain.cc
$plus -nostdlib++ -shared -o libplain.so plain.o
$plus -shared -o libfull.so full.cc
installed disk libplain.so libfull.so
for words in plain.o 'libplain.so libfull.so' 'libfull.so libplain.so'; do
    $plus -o mixed mixed.cc $words libfull.so
    want "mixed: $words" '= 22' "$(ended "$built/rlibreg-run" disk ./mixed)"
done

# Eight jobs at once.
for at in 1 2 3 4 5 6 7 8; do
    ($plus -O1 $defined -shared -o libjob$at.so driver_cxx_one.cc && echo done > said$at) &
done
wait
want 'eight jobs' '8' "$(cat said? | grep -c done)"
cd ..
echo "driver: C++ with its standard library, by$linkers"

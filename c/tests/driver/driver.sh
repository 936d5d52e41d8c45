# Tests rlibreg-gcc: the results of a project's usual commands, the refusals, and that the loader
# runs its programs. The expected outputs of programs are written by hand from their sources
# (programs/driver_*).

if ! command -v musl-gcc > /dev/null; then
    echo 'skipped: rlibreg-gcc, which needs the musl-gcc of musl-tools'
    exit 0
fi
[ ! -d "$objects/driver" ] || exit 0 # once: the driver isn't what the two compilers make
mkdir "$objects/driver"
programs=$here/programs
PATH=$built:$PATH
mkdir driver
cd driver
gcc=rlibreg-gcc
exported() {
    nm -D --defined-only "$1" 2> told | sed 's/^[^ ]* . //; /^_/d' | sort | tr '\n' ' '
}
# ends WHAT LEFT MESSAGE WORD..: checks that the driver ends with status 1, and that MESSAGE is its last
# line. LEFT is `gone` if the driver has to remove an old output, and `old` if the output has to stay.
ends() {
    echo old > output
    want "$1" "$3
= 1" "$(ended "${@:4}" -o output | tail -n 2)"
    want "$1: what is left" "$2" "$(cat output 2> /dev/null || echo gone)"
}
refused() { ends "$1" gone "${@:2}"; }

# Version scripts, with each linker and in each form: they select the exports, and no version is
# left.
cat > two.map << 'END'
# Two versions, the second of which has a pattern.
TWO_1.0 { global: one; /* not
    other; */ local: *; };
TWO_1.1 { also_*; local_one; } TWO_1.0;
END
cat > source.c << 'END'
int inner(void) { /* by a division that is in libgcc.a */
    volatile unsigned __int128 seven = 7;
    return (int)(NUMBER * seven / seven);
}
int one(void) { return inner(); }
int also_one(void) { return one(); }
int local_one(void) { return one(); }
END
echo "'-DTEXT=(a b)' -Wl,-z,now,--version-script=two.map" > words
linkers=
for linker in bfd gold lld; do
    command -v ld.$linker > /dev/null || continue
    linkers="$linkers $linker"
    for words in -Wl,--version-script=two.map -Wl,--version-script,two.map \
        -Wl,-z,defs,--version-script,two.map,-z,now '-Wl,--version-script -Wl,two.map' \
        '-Xlinker -version-script=two.map' '-Xlinker --version-script -Xlinker two.map' @words; do
        rm -f libone.so
        $gcc -fuse-ld=$linker -fstack-protector-all -DNUMBER=1 -shared $words -o libone.so source.c
        want "$linker $words" 'also_one local_one one ' "$(exported libone.so)"
        want "$linker $words: what it asks for" '' "$(nm -D libone.so | grep ' U ' || true)"
        want "$linker $words: versions" '' "$(readelf -VW libone.so | grep 'TWO\|Name:' || true)"
    done
    $gcc -fuse-ld=$linker -DNUMBER=1 -shared -o libone.so source.c
    want "$linker: no script" 'also_one inner local_one one ' "$(exported libone.so)"
    cat > versions.c << 'END'
int first(void) { return 1; }
int second(void) { return 2; }
__asm__(".symver first,it@TWO_1.0\n.symver second,it@@TWO_1.1");
END
    left=gone
    [ $linker != lld ] || left=old # as it leaves it for gcc
    ends "$linker: symbols with versions" $left \
        "$gcc: output: symbols with versions of their own (.symver): configure without them" \
        $gcc -fuse-ld=$linker -shared versions.c
done
cat > both.map << 'END'
A { global: one; local: *; };
B { global: one; };
END
ends 'two versions of a symbol' old "$gcc: both.map: one has two versions, A and B" \
    $gcc -shared -DNUMBER=1 source.c -Wl,--version-script=both.map
echo 'A { global: one;' > both.map
ends 'half a script' old "$gcc: both.map: it ends within a version" \
    $gcc -shared -DNUMBER=1 source.c -Wl,-z,now,--version-script=both.map
ends 'no script' old "$gcc: none.map: there is no such file" \
    $gcc -shared -DNUMBER=1 source.c -Wl,-z,now,--version-script=none.map

# Libraries and programs that the product refuses.
cat > indirect.c << 'END'
static int one(void) { return 1; }
static int (*choose(void))(void) { return one; }
int chosen(void) __attribute__((ifunc("choose")));
END
indirect="$gcc: output: refused C1 E26 IfuncSymbol: an indirect function: configure without ifunc and \
target_clones attributes"
refused 'an indirect function' "$indirect" $gcc -shared indirect.c
refused 'a name with a slash' \
    "$gcc: output: refused C1 E33 BadSoname: link with -Wl,-soname,NAME" \
    $gcc -shared -DNUMBER=1 source.c -Wl,-z,now,-soname,a/b
echo 'extern int data; int main(void) { return data; }' > copy.c
echo 'int data = 7;' > data.c
$gcc -shared -o libdata.so data.c
musl-gcc -O1 -fPIE -c copy.c
refused 'data that is copied' "$gcc: output: refused B1 E30 RelocationType 5: compile all of it by \
this driver, with -fPIC" $gcc copy.o libdata.so
specs=$(sed -n 's/.*-specs "\(.*\)".*/\1/p' "$(command -v musl-gcc)")
if [ -f "${specs%/*}/libc.so" ]; then
    cp "${specs%/*}/libc.so" .
    refused "musl's libc.so" "$gcc: output: refused B3 Missing output libc.so: leave musl's libc.so \
out: a program has libc.a within" $gcc copy.c libdata.so -Wl,--no-as-needed libc.so
fi
gcc -shared -fPIC -nostdlib -o libnameless.so data.c
refused 'a path for a name' "$gcc: output: refused B3 Missing output ./libnameless.so: link a \
library that has a SONAME" $gcc copy.c ./libnameless.so
$gcc -pie -fPIE -no-pie -o copy copy.c libdata.so -lc -lm
printf '*self_spec:\n+ %%{!fPIC:-fPIE}\n\n' > pie.specs # as Debian's pie-compile.specs
$gcc -specs=pie.specs -o copy copy.c libdata.so
$gcc -o /dev/null copy.c libdata.so
[ -c /dev/null ]

# The programs that a configure script makes can be run.
echo 'int main(void) { return 3; }' > conftest.c
want 'what gcc has for another C library' 'collect2: error: ld returned 1 exit status
= 1' "$(ended $gcc -fsanitize=address -o conftest conftest.c | tail -n 2)"
$gcc -o conftest -x c - -lm < conftest.c
want 'a small program' '' "$(exported conftest)"
if [ -x "$(readelf -lW conftest | sed -n 's/.*interpreter: \(.*\)\]/\1/p')" ]; then
    want 'where it is built' '= 3' "$(ended ./conftest)"
else
    echo "skipped: a program where it is built, for want of musl's loader"
fi
$gcc --whole-libc -o conftest conftest.c
want 'all of musl' 'dlopen dlsym malloc qsort strtok ' "$(exported conftest | tr ' ' '\n' |
    grep -x 'malloc\|qsort\|strtok\|dlopen\|dlsym' | tr '\n' ' ')"

want "what a build system sees of the driver's own" '' \
    "$($gcc -v -o conftest conftest.c 2>&1 | tr ' ' '\n' | grep "^${TMPDIR:-/tmp}/.*\.a$" || true)"

# With these words the driver works as musl-gcc does: for an object file, a text and a static link.
$gcc --whole-libc -c -o conftest.o conftest.c
musl-gcc -static -o static conftest.o
$gcc -static -o linked conftest.o
cmp static linked
want 'a text' "$(musl-gcc -fPIC -E conftest.c)" "$($gcc -E conftest.c)"
want 'a question' "$(musl-gcc -print-prog-name=ld)" "$($gcc -print-prog-name=ld)"

# The driver finds the kernel's headers. All other headers that it finds are musl's.
cat > kernel.c << 'END'
#include <linux/fs.h>
int sharing = FICLONE != 0;
END
$gcc -c kernel.c
echo '#include <gnu/libc-version.h>' > other.c
want "another C library's header" 'compilation terminated.
= 1' "$(ended $gcc -c other.c | tail -n 2)"

# In a bare chroot there is no /proc, and so no /dev/fd.
if unshare -rm mount -t tmpfs none /proc 2> told; then
    rm -f libone.so
    unshare -rm bash -c "mount -t tmpfs none /proc && $gcc -DNUMBER=1 -shared @words -o libone.so source.c"
    want 'without /proc' 'also_one local_one one ' "$(exported libone.so)"
else
    echo "skipped: a machine without /proc ($(cat told))"
fi

# Two libraries whose inner names are the same, and a third one that has a finalizer, all from a
# registry.
rm -f disk
"$built/rlibreg" format disk 2048 > /dev/null
$gcc -DNUMBER=1 -shared -Wl,-z,now,--version-script=two.map -o libone.so source.c
sed 's/one/two/g' source.c > source2.c
sed 's/one/two/g' two.map > two2.map
$gcc -DNUMBER=2 -shared -Wl,-z,now,--version-script=two2.map -o libtwo.so source2.c
cp "$programs"/driver_* .
$gcc -shared -o liblast.so driver_last.c
$gcc -o numbers driver_numbers.c libone.so libtwo.so
$gcc -o ends driver_ends.c liblast.so
for name in one two last; do "$built/rlibreg" install disk lib$name.so > /dev/null; done
want 'inner names' 'one 1 two 2
= 0' "$(ended "$built/rlibreg-run" disk ./numbers)"
want 'finalizers' 'main
main ends
last ends
= 5' "$(ended "$built/rlibreg-run" disk ./ends)"
"$built/rlibreg-tool" executable disk numbers 0x10000000 > alone
chmod +x alone
want 'as an executable' 'one 1 two 2
= 0' "$(ended ./alone)"

. "$here/driver/driver_words.sh"
. "$here/driver/driver_projects.sh"
. "$here/driver/driver_threads.sh"
. "$here/driver/driver_opening.sh"

# C++ without its library: two libraries with an object each, virtual destructors, statics of functions,
# new and delete.
if command -v g++ > /dev/null; then
    words=-nostdlib++
    rlibreg-g++ $words -shared -o libbase.so driver_base.cc
    rlibreg-g++ $words -shared -o libderived.so driver_derived.cc libbase.so
    rlibreg-g++ $words -o shapes driver_shapes.cc libderived.so libbase.so
    for name in base derived; do "$built/rlibreg" install disk lib$name.so > /dev/null; done
    want 'C++' "$(cat "$programs/driver_shapes.txt")
= 0" "$(ended "$built/rlibreg-run" disk ./shapes)"
    rlibreg-g++ $words -Wall -Wextra -Werror -o new driver_new.cc
    want 'new and delete' 'wrong: 0
= 0' "$(ended "$built/rlibreg-run" disk ./new)"
    for block in 0 1 2 3 4 5 6 7 8 9; do
        want "an impossible block, $block" '= 134' "$(ended "$built/rlibreg-run" disk ./new $block)"
    done
    . "$here/driver/driver_cxx.sh"
else
    echo 'skipped: rlibreg-g++, for want of g++'
fi
cd ..
echo "driver: libraries by$linkers and programs made by rlibreg-gcc: exported, refused, run as written"

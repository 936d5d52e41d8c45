# A part of driver.sh: tests dlopen and the related calls, for the libraries that a program is bound
# to.

# The functions that a configure script tries are found, with each way of linking.
for words in '' --whole-libc -ldl '-ldl -lc' -static; do
    for name in dlopen dlsym dlclose dlerror dladdr dl_iterate_phdr; do
        echo "char $name(void); int main(void) { return $name != 0; }" > conftest.c
        $gcc -w -o conftest conftest.c $words
    done
done
want 'another name' 'collect2: error: ld returned 1 exit status
= 1' "$(ended $gcc -w -o conftest -x c - -ldl <<< 'int main(void) { return dlvsym(); }' | tail -n 2)"
want 'no module' "$gcc: --module wants a FILE
= 1" "$(ended $gcc -o conftest conftest.c --module)"
want 'a module that is nowhere' '= 1' "$(ended $gcc -o conftest conftest.c --module none.so | tail -n 1)"

want 'a module, where nothing is linked' '= 0' "$(ended $gcc --module none.so -c -o conftest.o conftest.c)"

mkdir opening
cd opening
mkdir kept
chmod 700 kept
cp ../driver_open* ../driver_below.c .
"$built/rlibreg" format disk 4096 > told
cat > said << 'END_OF_FILE'
module.so: found
./module.so: found
/a/b/libbelow.so: found
below: not found, below: @
: not found, : @
folder/: not found, folder/: @
libc.so.6: not found, libc.so.6: @
./program: not found, ./program: @
module.so/: not found, module.so/: @
48 7 41
3 5
1 2 3 2
3 11
hidden: not found, Symbol not found: module_hidden
not below: not found, Symbol not found: module_call
nowhere: not found, Symbol not found: nowhere
no handle: not found, Invalid library handle 0x
half a handle: not found, Invalid library handle 0x
no object's: not found, Invalid library handle 0x
0 0 1
closed: found, Invalid library handle 0x
module.so module_call
1 1 objects
wrong: 0
= 0
END_OF_FILE
said=$(sed 's/@/no library of this name is bound to the program, which rlibreg-gcc links with --module FILE/' said)
# opens WORD..: prints the output of the command without addresses.
opens() { ended timeout -s KILL 600 "$@" | sed 's/ 0x[0-9a-f]*$/ 0x/'; }

# The program doesn't refer to the module, and the linker is told to leave out unused libraries.
for linker in $linkers; do
    $gcc -fuse-ld=$linker -shared -o libbelow.so driver_below.c
    $gcc -fuse-ld=$linker -shared -o module.so driver_opened.c libbelow.so
    for words in --module '-Wl,--as-needed --module' '--whole-libc --module'; do
        $gcc -fuse-ld=$linker -o opens driver_opens.c $words module.so
        want "$linker $words: what is needed" 'module.so ' "$(needs opens)"
        for name in libbelow.so module.so; do
            "$built/rlibreg" replace disk $name > told 2>&1 || "$built/rlibreg" install disk $name > told
        done
        want "$linker $words" "$said" "$(opens "$built/rlibreg-run" disk ./opens)"
    done
    $gcc -fuse-ld=$linker -o opens driver_opens.c -Wl,--as-needed module.so
    want "$linker: no --module" '' "$(needs opens)"
done
$gcc -o opens driver_opens.c --module module.so
want 'where it is built' "$said" "$(LD_LIBRARY_PATH=. opens ./opens)"
"$built/rlibreg-tool" executable disk opens 0x10000000 > opens_alone
chmod +x opens_alone
want 'an executable' "$said" "$(opens ./opens_alone)"
if [ "$(id -u)" = 0 ] && command -v setpriv > told; then
    chmod u+s opens_alone
    chmod o+x .. . ../..
    want 'an executable with more rights than its user' "$said" \
        "$(opens setpriv --reuid=65534 --clear-groups ./opens_alone)"
else
    echo 'skipped: an executable with more rights than its user'
fi
sleep 2.1 # then images are kept
want 'an image is made' "$said" "$(opens "$built/rlibreg-run" -c kept disk ./opens)"
want 'from an image' "rlibreg-run: kept: its image is taken
$said" "$(opens "$built/rlibreg-run" -v -c kept disk ./opens)"

# A library that calls dlopen gets the program's dlopen.
$gcc -shared -o libasks.so -x c - << 'END_OF_FILE'
void *dlopen(const char *, int), *dlsym(void *, const char *);
int asks(void) { return ((int (*)(void))dlsym(dlopen("libbelow.so", 2), "below"))(); }
END_OF_FILE
"$built/rlibreg" install disk libasks.so > told
$gcc -o asks --module libbelow.so -x c - -x none libasks.so <<< 'int asks(); int main(void) { return asks(); }'
want 'a library that opens' '= 7' "$(ended "$built/rlibreg-run" disk ./asks)"
$gcc -o asks -Wl,-e,begin --module libbelow.so -x c - << 'END_OF_FILE'
#include <dlfcn.h>
int main(void) { return dlopen("libbelow.so", RTLD_NOW) == 0; }
__asm__(".globl begin\nbegin: jmp _start");
END_OF_FILE
want 'another entry' '= 0' "$(ended "$built/rlibreg-run" disk ./asks)"

# Libraries that need each other.
$gcc -shared -o libbelow.so driver_below.c module.so
"$built/rlibreg" replace disk libbelow.so > told
want 'libraries in a circle' "${said/not below: not found, Symbol not found: module_call/not below: found}" \
    "$(opens "$built/rlibreg-run" disk ./opens)"
cd ..

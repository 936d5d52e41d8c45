# Tests which functions rlibreg-run calls before a program starts, and which are called at the program's
# end. The expected orders are written by hand from the needs of the libraries; bench/trials/initializers.py
# compares many orders with those of the system's loader.

programs=$here/programs
compile='command gcc -O1 -fPIC -nostdlib -fno-stack-protector -fno-asynchronous-unwind-tables'
compile="$compile -Wl,--hash-style=sysv"
rm -f disk many
./tool format disk 512 > /dev/null

# library NAME NEEDED..: makes a library of stage.c, which needs NEEDED. (In a circle, the needed
# libraries are made first.) Also links it with the words in `asks`.
library() {
    local name=$1 flags=-Wl,-init,first,-fini,last,--no-as-needed
    shift
    [ -f $name.o ] || $compile -DNAME="\"$name\"" -c -o $name.o "$programs/stage.c"
    $compile -shared -Wl,-soname,lib$name.so $flags ${asks:-} -o lib$name.so $name.o \
        $(printf ' lib%s.so' $*)
}
for name in a b c; do
    $compile -DNAME="\"$name\"" -c -o $name.o "$programs/stage.c"
    $compile -shared -Wl,-soname,lib$name.so -o lib$name.so $name.o
done
library a b
library b c
library c a
for name in a b c; do ./tool install disk lib$name.so > /dev/null; done
$compile -pie -Wl,-e,_start,--no-as-needed,--allow-shlib-undefined -o stages "$programs/stages.c" \
    libc.so
calls() {
    printf ' %s' ${*/#/a-} ${*/#/c-} ${*/#/b-}
}
began="$(calls first early late) entered"
ended=$(printf ' %s' {b,c,a}-{soon,then,last})
want 'a circle, from b, which is the last that is read' "before 1 ./stages$began$ended" \
    "$(./rlibreg-run disk ./stages)"
want 'a word' "before 2 ./stages$began$ended" "$(./rlibreg-run disk ./stages word)"
want 'an end that calls nothing' "before 3 ./stages$began" \
    "$(./rlibreg-run disk ./stages two words)"
./tool preload disk libc.so libb.so > /dev/null
want 'preloads' "before 3 ./stages$(printf ' %s' {c,b,a}-{first,early,late}) entered" \
    "$(./rlibreg-run disk ./stages two words)"
./tool preload disk > /dev/null

# The last library in load order with the flag DF_1_INITFIRST comes before the libraries that it needs,
# and before the program's pre-initializers. It is finalized in its usual place.
for name in f g; do asks=-Wl,-z,initfirst library $name a; done
library h f
for name in f g h; do ./tool install disk lib$name.so > /dev/null; done
$compile -pie -Wl,-e,_start,--no-as-needed,--allow-shlib-undefined -o firsts "$programs/stages.c" \
    libh.so libg.so libc.so
want 'libraries that ask to come first' \
    "$(printf ' %s' f-{first,early,late})before 2 ./firsts$(calls first early late)$(
        printf ' %s' {g,h}-{first,early,late}) entered$(
            printf ' %s' {h,g,f,b,c,a}-{soon,then,last})" \
    "$(./rlibreg-run disk ./firsts word)"
compiled damaged "$checked" "$here/loader/damaged.c" "$here"/../loader/rlibreg_run_{objects,order,calls}.c
gcc $checked -o damaged "$objects"/damaged/*.o "$built/librlibreg.a"
./damaged disk stages

# C++, and the arguments of initializers.
if command -v g++ > /dev/null; then
    cxx="g++ ${compile#command gcc} -fno-exceptions -fno-rtti -fno-use-cxa-atexit"
    $cxx -shared -Wl,-soname,libobjects.so -o libobjects.so "$programs/objects.cc"
    $compile -shared -Wl,-soname,libgiven.so,-z,relro -o libgiven.so "$programs/given.c"
    $compile -pie -Wl,-e,_start -o uses "$programs/uses.c" libobjects.so libgiven.so
    for name in objects given; do ./tool install disk lib$name.so > /dev/null; done
    want 'objects of C++' ' +one +two given 2 -two -one 0
= 0' "$(ended ./rlibreg-run disk ./uses)"
    want 'a library that writes what is fixed' ' +one +two given= 139' \
        "$(ended ./rlibreg-run disk ./uses fixed)"
else
    echo 'skipped: a library in C++, which needs g++'
fi

$compile -fstack-protector-all -shared -Wl,-soname,libguarded.so -o libguarded.so \
    "$programs/guarded.c"
./tool install disk libguarded.so > /dev/null
$compile -fstack-protector-all -pie -Wl,-e,_start,--no-as-needed -o guards "$programs/bare.c" \
    libguarded.so
want 'a library and a program with a stack protector' ' guarded entered= 0' \
    "$(ended ./rlibreg-run disk ./guards)"

# number_at FILE OFFSET NUMBER: writes eight bytes, little endian.
number_at() {
    local shift
    for shift in 0 8 16 24 32 40 48 56; do
        printf "\\x$(printf %02x $((($3 >> shift) & 255)))"
    done | dd of="$1" bs=1 seek=$(($2)) conv=notrunc 2> lost
}

# with_tag TAG NUMBER WANTED: tries liba.so with another value of a tag in its dynamic section.
with_tag() {
    local entry at
    cp liba.so changed.so
    entry=$(readelf -dW liba.so | awk -v tag="($1)" '/^ 0x/ {n++} $2 == tag {print n - 1}')
    at=$(readelf -lW liba.so | awk '$1 == "DYNAMIC" {print $2}')
    number_at changed.so $((at + 16 * entry + 8)) $2
    ./tool replace disk changed.so > /dev/null
    want "$1 of $2" "rlibreg-run: liba.so: DT_$3
= 125" "$(ended ./rlibreg-run disk ./stages)"
}
value_of() {
    echo $(($(readelf -dW liba.so | awk -v tag="($1)" '$2 == tag {print $3}')))
}
outside="names a function that isn't in its own code"
unread="isn't in its memory"
half='has no whole number of addresses'
with_tag INIT 0 "INIT $outside"
with_tag INIT $(value_of INIT_ARRAY) "INIT $outside"
with_tag INIT -4096 "INIT $outside"
with_tag FINI 0x100000 "FINI $outside"
with_tag INIT_ARRAY $(value_of INIT) "INIT_ARRAY $outside"
with_tag INIT_ARRAY 0x100000 "INIT_ARRAY $unread"
with_tag INIT_ARRAY -8 "INIT_ARRAY $unread"
with_tag INIT_ARRAYSZ 0x100000 "INIT_ARRAY $unread"
with_tag INIT_ARRAYSZ -8 "INIT_ARRAY $unread"
with_tag INIT_ARRAYSZ 9 "INIT_ARRAY $half"
with_tag FINI_ARRAY 0x100000 "FINI_ARRAY $unread"
with_tag FINI_ARRAYSZ 15 "FINI_ARRAY $half"
./tool replace disk liba.so > /dev/null
cp stages changed
at=$(readelf -SW stages | sed 's/^ *\[ *[0-9]*\]//' | awk '$1 == ".init_array" {print "0x" $3}')
entry=$(readelf -dW stages | awk '/^ 0x/ {n++} /PREINIT_ARRAYSZ/ {print n - 1}')
number_at changed $(($(readelf -lW stages | awk '$1 == "DYNAMIC" {print $2}') + 16 * entry + 8)) 12
want 'a half of an address' "rlibreg-run: ./changed: DT_PREINIT_ARRAY $half
= 125" "$(ended ./rlibreg-run disk ./changed)"

# If another library exports the name of a constructor too, the constructor's address lies in that
# library, and the loader refuses the program.
for name in d e; do
    echo 'void setup(void) {} void (*call)(void) __attribute__((section(".init_array"))) = setup;' |
        $compile -shared -Wl,-soname,lib$name.so -o lib$name.so -x c -
    ./tool install disk lib$name.so > /dev/null
done
$compile -pie -Wl,-e,_start,--no-as-needed -o setups "$programs/bare.c" libd.so libe.so
want "another library's constructor" "rlibreg-run: libe.so: DT_INIT_ARRAY $outside
= 125" "$(ended ./rlibreg-run disk ./setups)"

# A circle of 2,048 libraries, with a small stack: x0000 needs x0001, and so on, and the last needs x0000.
$compile -DNAME='"x0000"' -shared -Wl,-soname,y0000 -o y0000 "$programs/stage.c"
$compile -DNAME='"x0000"' -DBRIEF -shared -s -Wl,-z,noseparate-code,-soname,x0000,--no-as-needed \
    -o x0000 "$programs/stage.c" y0000
"$rlibreg" format many 65536 > /dev/null
od -An -v -tx1 x0000 | tr -d ' \n' | awk '
    function hex(letter, number, i, digits, all) {
        digits = sprintf("%04d", number % 2048)
        for (i = 1; i <= 4; i++) all = all "3" substr(digits, i, 1)
        return letter all
    }
    {
        for (number = 0; number < 2048; number++) {
            file = $0
            gsub("7830303030", hex("78", number), file)
            gsub("7930303030", hex("78", number + 1), file)
            print "install " file
        }
    }' | "$rlibreg" script many > installed
want 'libraries of a circle' 2048 "$(grep -c ok installed)"
$compile -pie -Wl,-e,_start,--no-as-needed,--allow-shlib-undefined -o circle \
    "$programs/bare.c" x0000
want 'a circle of 2,048 libraries' \
    "$(seq -f ' x%04g-early' 2046 -1 0 | tr -d '\n') x2047-early entered" \
    "$(ulimit -s 512 && ./rlibreg-run many ./circle)"
echo 'initializers: circles, C++, what they are given, and what is refused of them: as wanted'

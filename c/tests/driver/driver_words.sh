# A part of driver.sh: tests words and names that a driver could read differently from gcc, or pass
# to awk and sed.

# gcc decides what words mean: no word keeps the product from reading the linked file.
for words in '-dumpdir -c' '-dumpbase -E' '-dumpbase-ext .s' -dA '-MD -MT -M' '-I -S' -Wl,-rpath,-r \
    '-Xlinker -rpath -Xlinker --version' '-o other'; do
    refused "$words" "$indirect" $gcc -shared indirect.c $words
done
refused "an argument that isn't known as one" "${indirect/C1/B1}" $gcc -shared indirect.c -Wl,--exclude-libs,-r

# makes NAMES WORD..: checks that the driver, in an empty folder, makes files of these names and
# ends with status 0.
makes() {
    mkdir made
    (cd made && $gcc "${@:2}" > ../told 2>&1) || { cat told; exit 1; }
    want "${*:2}: what is made" "$1" "$(cd made && echo *)"
    rm -r made
}
# The driver's own texts.
want '--version' "$(gcc --version | tail -n +2
    echo "rlibreg-gcc $("$here/../version.sh")")" "$($gcc --version | tail -n +2)"
want '--help' "Usage: rlibreg-gcc [options] file..." "$($gcc --help | head -n 1)"
echo 'int one(void) { return 1; }' > plain.c
echo '#define ONE 1' > plain.h
for words in -dumpversion '-### -o output' --help -fsyntax-only -M -Wl,--version; do
    makes '*' ../plain.c $words
done
makes plain.o -c ../plain.c
makes output -E ../plain.c -o output
makes plain.s -S ../plain.c
makes 'output.d output.so' -shared -MD ../plain.c -o output.so
makes 'output output-plain.i output-plain.o output-plain.s' -shared -save-temps ../plain.c -o output
makes output.o -r ../plain.c -o output.o
makes output -shared -nostdlib ../plain.c -o output
makes output -nostdlib -Wl,-e,one ../plain.c -o output
makes output.o -nostdlib -no-pie -Wl,-r ../plain.c -o output.o
makes second -shared ../plain.c -o first -o second
makes second -shared ../plain.c -o first -Wl,-o,second
makes -name -shared ../plain.c -o -name
rm -f plain.h.gch
$gcc plain.h
[ -s plain.h.gch ]
want "gcc's version" "$(gcc -dumpversion)" "$($gcc -dumpversion)"
for words in '-shared plain.c -o' '-c plain.c -o' '-c plain.c -I' '-c plain.c -D'; do
    want "$words" '= 1' "$(ended $gcc $words | tail -n 1)"
    want "$words: what is made" '' "$(compgen -G '-*' || true)"
done
want '-name, refused' '= 1' "$(ended $gcc -shared indirect.c -o -name | tail -n 1)"
want '-name, refused: what is left' '' "$(compgen -G '-*' || true)"

# After a failure, the driver leaves as much of an old output as gcc does.
echo 'int one(' > wrong.c
echo old > output
want 'an error in C' '= 1' "$(ended $gcc -shared wrong.c -o output | tail -n 1)"
want 'an error in C: what is left' old "$(cat output)"
for linker in $linkers; do
    for words in -lnone -Wl,-T,none; do
        echo old > output
        gcc -fuse-ld=$linker -nostdlib -shared -fPIC plain.c $words -o output > told 2>&1 || true
        ends "$linker $words" "$(cat output 2> told || echo gone)" \
            'collect2: error: ld returned 1 exit status' $gcc -fuse-ld=$linker -shared plain.c $words
    done
done
cp plain.c input.c
want 'an output that is the input' '= 1' "$(ended $gcc -shared input.c -o input.c | tail -n 1)"
cmp plain.c input.c
echo 'not ours' > a.out
$gcc -Wl,--version > told 2>&1
want 'an output that another made' 'not ours' "$(cat a.out)"
rm a.out

# An output that isn't a regular file gets the bytes of a file, once they were read.
plain="$gcc -shared -Wl,-soname,it plain.c"
$plain -o it
mkdir folder
want 'a folder' "$gcc: folder: it is a folder
= 1" "$(ended $plain -o folder)"
want 'a folder: what is in it' '' "$(ls -A folder)"
mkfifo pipe
timeout 300 cat pipe > got &
want 'a pipe' '= 0' "$(ended timeout 300 $plain -o pipe)"
wait $!
cmp it got
$plain -o /dev/stdout | cmp it -
want 'a full device' '= 1' "$(ended $plain -o /dev/full | tail -n 1)"
want 'a refused pipe' '= 1' "$(ended timeout 300 $gcc -shared indirect.c -o pipe 2> told | tail -n 1)"
ln -s target to
want 'a link to nothing, refused' '= 1' "$(ended $gcc -shared indirect.c -o to | tail -n 1)"
[ ! -e target ]
$plain -o to
cmp it target
[ -x target ] && [ -L to ]
# A wrong driver would remove /dev/stdout if that leads to a file. So this test has a /dev of its
# own.
if unshare -rm mount -t tmpfs none /mnt 2> told; then
    echo text > longer
    unshare -rm bash -c "mount -t tmpfs none /dev && ln -s /proc/self/fd/1 /dev/stdout && : > /dev/null
        $plain -o /dev/stdout > got && $plain -o /dev/stdout >> longer && [ -L /dev/stdout ]"
    cmp it got
    cmp it longer
else
    echo "skipped: a file as /dev/stdout ($(cat told))"
fi

# The driver reads files of words as gcc does, even those for the linker.
cat > words.c << 'END'
A B C D E
END
printf '%s\n' '"-DA=\"a b\""' "'-DB=\"b  b\"' -DC=c\\ c" "-DD=d ''" '"-DE=" @inner' > outer
echo '-P words.c @none' > inner
printf '@outer' > first
want 'words' '"a b" "b  b" c c d' "$($gcc -E @first 2> told | tr '\n' ' ' | sed 's/ *$//')"
want 'a file of words that is none' 1 "$(grep -c 'error: @none: ' told)"
echo @itself > itself
want 'a file in itself' '= 1' "$(ended timeout 300 $gcc @itself | tail -n 1)"
cp two.map 'a "map"'
printf '"--version-script=a \\"map\\"" @rest' > for_linker
printf -- "-soname 'it\nis'" > rest
$gcc -shared -DNUMBER=1 source.c -o libone.so -Wl,@for_linker,-soname,it
want "the linker's words" 'also_one local_one one ' "$(exported libone.so)"
long='a folder that has so long a name that the words are too many for one command if it is written often'
mkdir "$long"
$gcc -c plain.c
ar rc "$long/empty.a"
for ((at = 0; at < 2000; at++)); do echo "'$long/empty.a'"; done > many
echo '-shared plain.o -o many.so' >> many
(ulimit -s 512 && $gcc @many)
want 'many words' 'one ' "$(exported many.so)"

# Folders, sources, outputs, scripts, parts of the driver, and the folder of temporary files may have
# any name. (lld itself writes no output with a `%`.)
odd=$'sp ace\nnew\t"q\'u#&\\b=c*[x]$(y)`z`;|'
mkdir "$odd" "$odd/parts" "$odd/temporary"
for name in -gcc -ld .specs _begin.o _{dl,objects,emulated}.a _versions.awk _words.awk; do
    cp "$built/rlibreg$name" "$odd/parts"
done
for name in "$built"/rlibreg_tls-*.so; do [ ! -f "$name" ] || cp "$name" "$odd/parts"; done
cp source.c "$odd/$odd.c"
cp two.map "$odd/$odd"
cp two.map a=b.map
cp two.map -- -map
cp two.map '#map'
for linker in $linkers; do
    scripts=("$odd/$odd")
    [ $linker != bfd ] || scripts+=(a=b.map -map '#map')
    for script in "${scripts[@]}"; do
        rm -f "$odd/$odd.so"
        TMPDIR=$odd/temporary timeout 600 "$odd/parts/rlibreg-gcc" -fuse-ld=$linker -DNUMBER=1 -shared \
            "$odd/$odd.c" -Xlinker --version-script="$script" -Wl,-soname,it -o "$odd/$odd.so"
        want "$linker $script" 'also_one local_one one ' "$(exported "$odd/$odd.so")"
    done
done < /dev/null
TMPDIR=$PWD/$odd/temporary "$odd/parts/rlibreg-gcc" "$odd/$odd.c" -DNUMBER=1 -Dlocal_one=main \
    -o "$odd/$odd" -Wl,-v > told 2>&1
want "what a build system sees of the driver's own" 0 "$(grep -c 'libc\.a' told || true)"
want 'what the driver leaves behind' '' "$(compgen -G "$odd/temporary/rlibreg.*" || true)"
echo 'A { global: one;' > half.map
echo 'local: *; };' > rest.map
ends 'two halves of a script' old "$gcc: half.map: it ends within a version" \
    $gcc -shared plain.c -Wl,--version-script=half.map,--version-script=rest.map
ends 'a folder in the place of a script' old "$gcc: folder: it can't be read" \
    $gcc -shared plain.c -Wl,--version-script=folder

# A folder of temporary files that doesn't exist: the driver then uses another folder, as gcc does.
# After that, folders without room for temporary files, or for a registry.
TMPDIR=/none $gcc -shared plain.c -o libone.so
want 'another folder of temporary files' 'one ' "$(exported libone.so)"
if unshare -rm mount -t tmpfs none /mnt 2> told; then
    echo old > output
    want 'no room for temporary files' '= 1' "$(ended unshare -rm bash -c "mount -t tmpfs -o size=4k none \
        /mnt && TMPDIR=/mnt $gcc -o output -x c - <<< 'int main(void) { return 0; }'" | tail -n 1)"
    want 'no room: what is left' old "$(cat output)"
    echo 'char large[400000] = { 1 };' > large.c
    want 'no room for a registry' "$gcc: output: $(command -v rlibreg) can't read it, or has no room in /mnt
= 1" "$(ended unshare -rm bash -c "mount -t tmpfs -o size=256k none /mnt && $gcc -c large.c &&
        TMPDIR=/mnt $gcc -shared -o output large.o" | tail -n 2)"
    want 'no room for a registry: what is left' gone "$(cat output 2> told || echo gone)"
else
    echo "skipped: full folders of temporary files ($(cat told))"
fi

# A signal to all processes, or to the process that waits for the linker, leaves no output that wasn't
# read and no temporary file of the driver.
mkdir linkers temporary
cat > linkers/ld << 'END'
#!/usr/bin/env bash
PATH=${PATH#*:}
pid=$PPID waiting=
while [ $pid -gt 1 ]; do
    ! grep -qa rlibreg-ld /proc/$pid/cmdline || waiting=$pid
    pid=$(sed -n 's/^PPid:\t//p' /proc/$pid/status)
done
[ $SIGNALLED = all ] || kill -TERM $waiting
sleep 0.1
ld "$@"
[ $SIGNALLED != all ] || kill -TERM 0
END
chmod +x linkers/ld
for signalled in all one; do
    echo old > output
    {
        SIGNALLED=$signalled PATH=$PWD/linkers:$PATH TMPDIR=$PWD/temporary setsid -w $plain -o output || true
    } 2> told
    for ((tries = 0; tries < 100; tries++)); do
        [ -e output ] || compgen -G 'temporary/rlibreg.*' > told || break
        sleep 0.05
    done
    want "after a signal to $signalled" '' "$(ls -d output temporary/rlibreg.* 2> told || true)"
done

# Several drivers at once, in one folder.
mkdir made
for at in 1 2 3 4 5 6 7 8; do
    (cd made && $gcc -shared -Done=one_$at ../plain.c -o lib$at.so) &
done
wait
for at in 1 2 3 4 5 6 7 8; do want 'several at once' "one_$at " "$(exported made/lib$at.so)"; done

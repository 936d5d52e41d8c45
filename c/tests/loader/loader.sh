# Tests programs and libraries of several linkers under rlibreg-run. Their expected output and statuses
# are written by hand from their sources (programs/).

programs=$here/programs
compile='command gcc -O1 -fPIC -nostdlib -fno-stack-protector -fno-asynchronous-unwind-tables'
compile="$compile -Wl,--hash-style=sysv"
glibc=/lib64/ld-linux-x86-64.so.2

# made NAME LINKER FLAGS..: makes a program; library NAME LINKER FLAGS..: makes a library.
made() {
    $compile -fuse-ld="$2" -pie -Wl,-e,_start -o "$1" "$programs/$1.c" "${@:3}"
}
library() {
    $compile -fuse-ld="$2" -shared -Wl,-soname,"$1" -o "$1" "$programs/${1:3:-3}.c" "${@:3}"
}

# runs WHAT WANTED PROGRAM WORD..: runs a program under rlibreg-run and, if possible, under glibc's
# loader.
runs() {
    want "$linker: $1" "$2" "$(SEE=me ended ./rlibreg-run disk "${@:3}")"
    count=$((count + 1))
}
runs_alike() {
    runs "$@"
    [ -x $glibc ] || return 0
    want "$linker: $1, by glibc" "$2" \
        "$(ended env LD_BIND_NOW=1 LD_LIBRARY_PATH=. LD_PRELOAD="$preloads" $glibc "${@:3}")"
}

both='memory that may be written and executed, for which -x is needed'
count=0
linkers=
for linker in bfd gold lld; do
    command -v ld.$linker > /dev/null || continue
    linkers="$linkers $linker"
    library libone.so $linker
    library libtwo.so $linker libone.so
    library libbetween.so $linker
    for name in words deep place; do made $name $linker; done
    made walls $linker -Wl,-z,relro
    $compile -fuse-ld=$linker -shared -Wl,-e,_start,-z,relro -o own-walls "$programs/walls.c"
    made chain $linker libtwo.so libone.so
    made both $linker 2> warned || { cat warned >&2; exit 1; }
    made page $linker -Wl,-z,max-page-size=512,-z,common-page-size=512
    rm -f disk
    ./tool format disk 512 > /dev/null
    preloads=

    runs 'a program without its libraries' 'refused B3 Missing /program libtwo.so
= 125' ./chain
    for name in one two between; do ./tool install disk lib$name.so > /dev/null; done
    runs 'words' './words
a
b c

SEE=me
headers
entry
pages
ids
name
aligned
nothing at the end
= 3' ./words a 'b c' ''
    runs_alike 'libraries' 'one 36 13 nobody
= 18' ./chain
    ./tool preload disk libbetween.so > /dev/null
    preloads=libbetween.so
    runs_alike 'a preload' 'between 36 13 nobody
= 18' ./chain
    for what in constant fixed text x; do
        runs "$what" 'before
= 139' ./walls $what
    done
    runs 'a program that may relocate itself' 'before
after
= 0' ./own-walls fixed
    runs_alike 'a variable' 'before
after
= 0' ./walls variable
    runs_alike 'stack and zeros' '3000
= 1' ./deep
    for name in page both; do
        runs "$name" "rlibreg-run: ./$name: it has $both
= 125" ./$name
    done
    want "$linker: segments that share a page" 'one page
= 42' "$(ended ./rlibreg-run -x disk ./page)"
    want "$linker: a segment that may be written and executed" 'rewritten
= 0' "$(ended ./rlibreg-run -x disk ./both)"
    want "$linker: a base" 'one page
= 42' "$(ended ./rlibreg-run -x -b 0x7000000000 disk ./page)"
    want "$linker: a base that is no multiple of a page" 'refused B2 BadBase
= 125' "$(ended ./rlibreg-run -b 0x10001 disk ./page)"
    runs 'a library' "rlibreg-run: libone.so: it has no entry
= 125" libone.so
done
echo "loader: $count runs of programs made by$linkers: output and status as written"

# Tests an installation by install.sh into an empty folder, and the removal. In between it tests a
# program that is built with pkg-config only, and the other installed files.

install=$here/../install.sh
target=$PWD/target
prefix=/opt/rlibreg
list=$target$prefix/share/rlibreg/installed
export DESTDIR=$target
want 'where nothing is built' \
    'c/install.sh: nowhere/rlibreg doesn'\''t exist: run c/build.sh first
= 1' "$(ended "$install" $prefix nowhere | grep -v '^left out')"
want 'what it left' '' "$(ls -A "$target" 2> /dev/null)"

for path in relative ./a/b 'with a blank'; do
    want "PREFIX $path" 'c/install.sh: PREFIX has to be an absolute path: '"$path
= 1" "$(ended timeout 20 "$install" "$path" "$built")"
    want "PYTHONDIR $path" 'c/install.sh: PYTHONDIR has to be an absolute path: '"$path
= 1" "$(PYTHONDIR=$path ended timeout 20 "$install" $prefix "$built")"
done
want 'what they left' '' "$(ls -A "$target" 2> /dev/null)"

"$install" $prefix "$built" > said
"$install" $prefix "$built" > again
want 'a second time' "$(< said)" "$(< again)"
want 'the list, and what is there' "$(tail -n +2 "$list" | sed 's/\/$//' | sort)" \
    "$(cd "$target" && find . -mindepth 1 | sed 's/^\.//' | sort)"
grep "^left out" said || true
want 'the links of the README' '' "$(grep -o '](docs/[^)]*)' "$target$prefix/share/doc/rlibreg/README.md" || true)"
for name in rlibreg-gcc rlibreg-g++ rlibreg-run rlibreg-tool; do
    want "completion of $name" 'complete -F _rlibreg' \
        "$(bash -c '. "$1" && complete -p "$2"' - "$target$prefix/share/bash-completion/completions/$name" $name |
            grep -o '^complete -F _rlibreg')"
done
want 'the forms that begin with d' 'digest dump' "$(bash -c '. "$1"
    COMP_WORDS=(rlibreg-tool --wait 5 d) COMP_CWORD=3
    _rlibreg_tool
    echo "${COMPREPLY[*]}"' - "$target$prefix/share/bash-completion/completions/rlibreg-tool")"
want 'what has a word of its source in it' '' "$(grep -rlE '@(PREFIX|VERSION)@' "$target" || true)"
for script in hooks scripts/init-premount; do
    sh -n "$target$prefix/share/initramfs-tools/$script/rlibreg"
done
DESTDIR=$PWD/percent "$install" /opt/5% "$built" > percent.said
want 'a unit of a PREFIX that has a %' 'ExecStart=/opt/5%%/bin/rlibreg list /etc/rlibreg/disk' \
    "$(grep -h '^ExecStart=/opt' percent/opt/5%/lib/systemd/system/rlibreg-disk.service)"
want 'a script of a PREFIX that has a %' 'copy_exec /opt/5%/bin/rlibreg-run /usr/bin/rlibreg-run' \
    "$(grep '/opt' percent/opt/5%/share/initramfs-tools/hooks/rlibreg)"
rm -r percent

export LD_LIBRARY_PATH=$target$prefix/lib
"$target$prefix/bin/rlibreg" format installed.disk 64 > /dev/null
if command -v pkg-config > /dev/null; then
    export PKG_CONFIG_SYSROOT_DIR=$target PKG_CONFIG_LIBDIR=$target$prefix/lib/pkgconfig
    want 'the version' "$("$here/../version.sh")" "$(pkg-config --modversion rlibreg)"
    gcc -o installed "$here/library/shared.c" $(pkg-config --cflags --libs rlibreg)
    ./installed by-pkg-config.disk > /dev/null
else
    echo 'skipped: a program that is built by pkg-config, which is not here'
fi
if [ -z "$musl" ] && command -v python3 > /dev/null; then
    PYTHONPATH=$target$(sed -n 's|/rlibreg/py.typed$||p' "$list") python3 -c '
import rlibreg
assert rlibreg.Registry("installed.disk").list() == (0, [], [])'
fi

want 'another DESTDIR' "c/install.sh: $list was written with another DESTDIR
= 1" "$(DESTDIR= ended "$install" --remove "$list")"
"$install" --remove "$list"
want 'what is left' '' "$(ls -A "$target")"
for removed in $prefix/share/rlibreg/installed target$prefix/share/rlibreg/installed; do
    DESTDIR=target PYTHONDIR=/modules/ "$install" $prefix "$built" > said
    [ -e target/modules/rlibreg ]
    DESTDIR=target "$install" --remove $removed
    want 'what is left of a relative DESTDIR' '' "$(ls -A target)"
done
echo "installed: $(sed -n 's/^installed \(.* files\) .*/\1/p' said), used, and removed"

# The option -o: a file that gets its name only if it is whole.
mkdir into
umask 022
ends 0 executable -o into/alone new pl1 0x400000
[ ! -s said ] && [ ! -s told ] || fail 'an executable in a file wrote something else'
[ "$(stat -c %a into/alone)" = 755 ] || fail "an executable has the mode $(stat -c %a into/alone)"
exits 1 into/alone
"$tool" executable new pl1 0x400000 | cmp -s - into/alone || fail 'an executable in a file has other bytes'
for form in 'new' 'new commit'; do
    "$tool" dump $form > wanted
    ends 0 --wait 1 dump -o into/script $form
    cmp -s wanted into/script || fail "dump -o $form wrote other bytes"
    [ "$(stat -c %a into/script)" = 644 ] || fail 'a script may be executed'
    rm into/script
done

# Whatever is refused leaves no file.
ends 1 executable -o into/refused new "$samples/no-symbols.so" 0x400000
told 'rlibreg-tool: refused NoEntry'
cp new hurt
damage hurt "$(place hurt libl1.so)"
ends 1 dump -o into/refused hurt
ends 3 dump -o into/refused nothing
ends 2 executable -o into/refused new pl1
ends 2 dump -o into/refused
ends 2 info -o into/refused new
[ "$(ls -A into)" = alone ] || fail "left: $(ls -A into)"

# What exists stays as it is.
ln -s none into/dangling
mkdir into/folder
for path in into/alone into/dangling into/folder into/. /dev/full /dev/null new; do
    ends 3 dump -o "$path" new
    told "rlibreg-tool: cannot write $path: a file of this name exists"
    [ ! -s said ] || fail "-o $path wrote something"
done
exits 1 into/alone
ends 3 dump -o into/folder/ new
told 'rlibreg-tool: cannot write into/folder/: Is a directory'
ends 3 dump -o into/none/file new
told 'rlibreg-tool: cannot write into/none/file: no such folder'
rm -r into/dangling into/folder

# A kill leaves nothing under the name.
mkfifo lines-into
"$tool" executable -o into/killed new lines-into 0x400000 &
killed=$!
exec 8> lines-into
kill -9 "$killed"
wait "$killed" 2> /dev/null || true
exec 8>&-
[ ! -e into/killed ] || fail 'a kill left a file'
if [ "$(id -u)" = 0 ] && mkdir small-into && mount -t tmpfs -o size=16k none small-into 2> /dev/null; then
    ends 3 executable -o small-into/alone new pl1 0x400000
    told 'rlibreg-tool: cannot write'
    [ -z "$(ls -A small-into)" ] || fail 'a full disk has a part of an executable'
    umount small-into
fi

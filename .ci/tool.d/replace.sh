# Programs are started beside a damaged library, which is then replaced. Others are removed.
if [ -n "$run" ]; then
    exits 1 "$run" old ./pl1
    exits 125 "$run" old ./pl2
    grep -q 'refused S5 Damaged' told || fail "a damaged library was told so: $(cat told)"
fi

# The library is replaced as if it were sound: the result is the disk that `rlibreg` makes of the sound
# disk.
[ "$("$program" replace old libl2.so || true)" = 'refused S5 Damaged' ] || fail 'rlibreg mends'
cp old mended
damage mended "$(place mended libl1.so)"
ends 0 replace mended libl1.so
[ "$(cat said)" = ok ] || fail "replace told $(cat said)"
ends 1 check mended
[ "$(grep -c '^ok ' said)" = 2 ] || fail 'replace mended another library'
ends 0 replace mended libl2.so
for n in 1 2; do "$program" replace whole "libl$n.so" > answer; done
[ "$("$program" list mended)" = "$("$program" list whole)" ] || fail 'what was mended differs'
cp old without
ends 1 remove without libl1.so
[ "$(cat said)" = 'refused C4 InPreloads' ] || fail "remove told $(cat said)"
ends 0 remove without libl2.so
[ "$("$program" list without | sed -n 's/^library //p' | cut -d ' ' -f 1 | tr '\n' ' ')" = 'libl1.so libl3.so ' ] ||
    fail 'something else was removed'

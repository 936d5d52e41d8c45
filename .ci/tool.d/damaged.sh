# A damaged library among others: the answers of `check`, `digest`, `dump` and `file`.
cp old whole
damage old "$(place old libl2.so)"
ends 1 check old
printf 'ok libl1.so %s\ndamaged libl2.so E2 BadMagic\nok libl3.so %s\nend\n' "$(stat -c %s libl1.so)" "$(stat -c %s libl3.so)" > wanted
cmp -s said wanted || fail "check told $(cat said)"
ends 0 digest old
for n in 1 2 3; do
    "$tool" file old "libl$n.so" > given.so
    sha256sum given.so | sed "s/given.so/libl$n.so/"
done > wanted
cmp -s said wanted || fail "digest told $(cat said)"
ends 1 dump old
told 'rlibreg-tool: damaged libl2.so E2 BadMagic'
[ "$(tail -c 4 said | od -An -c | tr -d ' ')" = '\ncut' ] || fail 'the cut dump ends otherwise'
"$program" format half 256 > answer
"$program" script half < said > answer && fail 'a cut dump was taken'
[ "$(tail -n 1 answer)" = 'refused L2 CutLine' ] || fail 'a cut dump was answered otherwise'
ends 0 file old libl3.so
cmp -s said libl3.so || fail 'the bytes beside a damaged library differ'

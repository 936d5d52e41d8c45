# update: each line is planned, and `commit` makes all the changes in one commit, which has two syncs.
# updates STATUS DISK: runs the update in `lines`, which has to end with this status. If it is refused,
# DISK has to stay as it was.
updates() {
    cp "$2" before
    ends "$1" update "$2" < lines
    [ ! -s told ] || fail "an update told $(cat told)"
    [ "$1" = 0 ] || cmp -s -n 1024 before "$2" || fail "an update wrote a root: $(tail -n 1 said)"
    [ "$1" = 0 ] || [ "$("$tool" info before)" = "$("$tool" info "$2")" ] || fail 'an update keeps sectors'
}

"$program" format planned 256 > answer
"$program" install planned libl1.so > answer
cp planned by-script
{ line install libl2.so; echo 'preload libl2.so'; line replace libl1.so; echo list; } > lines
"$program" script by-script < lines | sed 's/^ok$/planned/' > wanted
{ line 'bind 0x400000' pl2; echo commit; echo 'nothing of this is read'; } >> lines
printf 'bound\nok\n' >> wanted
[ "$("$program" bind planned pl2 0x400000 || true)" = 'refused B3 Missing /program libl2.so' ] || fail 'pl2 is bound'
cp planned again
updates 0 planned
cmp -s said wanted || fail "update told $(cat said)"
"$program" bind planned pl2 0x400000 > answer || fail "what was bound isn't: $(tail -n 1 answer)"
[ "$("$program" list planned)" = "$("$program" list by-script)" ] || fail 'an update makes another registry'
[ "$("$tool" info planned | sed -n 's/^generation //p')" = 2 ] || fail 'an update is not one change'
if command -v strace > /dev/null; then
    strace -qq -e trace=fsync -e signal=none -o syncs "$tool" update again < lines > said
    [ "$(grep -c ' = 0$' syncs)" = 3 ] || fail "an opening and an update make $(wc -l < syncs) syncs"
fi
# refuses REFUSAL: checks that the line on standard input is refused in this way, after a line that is
# planned.
refuses() {
    { line install libl3.so; cat; } > lines
    updates 1 planned
    printf 'planned\nrefused %s\n' "$1" | cmp -s - said || fail "update told $(cat said) and not $1"
}
echo 'begin 0x0 00' | refuses 'L1 BadLine'
echo 'commit ' | refuses 'L1 BadLine'
printf commit | refuses 'L2 CutLine'
printf '' | refuses 'L3 NoCommit'
echo 'replace 00' | refuses 'C1 E1 TooShort'
line install libl3.so | refuses 'C2 AlreadyInstalled'
echo 'remove libnone.so' | refuses 'C3 NotInstalled'
echo 'remove libl2.so' | refuses 'C4 InPreloads'
echo 'preload libl3.so libl3.so' | refuses 'C5 RepeatedPreload'
line 'bind 0x1' pl1 | refuses 'B2 BadBase'
line install libl4.so | refuses 'S7 Full'
cp planned damaged
for n in 1 2; do
    damage damaged "$(place damaged libl$n.so)"
    line replace "libl$n.so"
done > lines
echo commit >> lines
updates 0 damaged
[ "$("$program" list damaged)" = "$("$program" list planned)" ] || fail 'two damaged libraries are not mended at once'

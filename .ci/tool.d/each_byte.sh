# Each byte of a small library is damaged in turn. If a test finds the damage, `rlibreg` doesn't open the
# disk, `check` names the library, and `replace` repairs it.
cp "$samples/strong.so" small.so
rm whole
"$program" format whole 64 > answer
"$program" install whole "$samples/no-symbols.so" > answer
"$program" install whole small.so > answer
small=$("$program" list whole | tail -n 2 | head -n 1 | cut -d ' ' -f 2)
at=$(place whole small.so)
found=0
for i in $(seq 0 $(($(stat -c %s small.so) - 1))); do
    cp whole old
    damage old $((at + i))
    if "$program" list old > answer; then
        ends 0 check old
        continue
    fi
    [ "$(cat answer)" = 'refused S5 Damaged' ] || fail "rlibreg told $(cat answer)"
    found=$((found + 1))
    ends 1 check old
    grep -q "^damaged $small " said || fail "byte $i: check told $(cat said)"
    [ "$(grep -c '^ok ' said)" = 1 ] || fail "byte $i: another library isn't ok"
    ends 0 replace old small.so
    [ "$("$program" list old)" = "$("$program" list whole)" ] || fail "byte $i isn't mended"
    ends 0 file old "$small"
    cmp -s said small.so || fail "byte $i: the bytes of what was mended differ"
done
[ "$found" -gt 100 ] || fail "a test found $found of the damaged bytes"

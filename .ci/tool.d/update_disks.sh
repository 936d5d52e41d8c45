# The example of docs/FORMATS.md: the update uses sectors again that it wrote itself. Then an update
# without a change, which writes nothing.
"$program" format sixteen 16 > answer
"$program" install sixteen "$samples/soname-good-0.so" > answer
for n in 1 2; do line replace "$samples/soname-good-0.so"; done > lines
{ line install "$samples/strong.so"; echo commit; } >> lines
updates 0 sixteen
# holds SECTOR AT LENGTH: prints bytes of the disk, in hexadecimal.
holds() {
    od -An -v -tx1 -j $((512 * $1 + $2)) -N "$3" sixteen | tr -d ' \n'
}
cmp -s -n 344 -i 0:$((512 * 7)) "$samples/soname-good-0.so" sixteen && cmp -s -n 376 -i 0:$((512 * 9)) "$samples/strong.so" sixteen &&
    [ "$(holds 8 0 4)$(holds 5 0 4)$(holds 6 0 4)" = 4c4942454c4942454c494243 ] && [ "$(holds 6 16 8)" = 0800000005000000 ] &&
    [ "$(holds 0 8 16)$(holds 0 64 4)" = 0200000000000000100000000200000006000000 ] || fail 'the example of docs/FORMATS.md is another disk'
echo commit > lines
updates 0 sixteen
cmp -s before sixteen || fail 'an update without a change wrote something'

# A dump that ends with `commit` is accepted as a whole. If it is cut, no part of it is accepted.
ends 0 dump planned commit
cp said whole-dump
for length in 0 1 100 "$(($(stat -c %s said) - 1))" "$(($(stat -c %s said) - 7))" "$(head -n 1 said | wc -c)" "$(head -n 2 said | wc -c)"; do
    "$program" format new-one 256 > answer
    head -c "$length" whole-dump > lines
    updates 1 new-one
    rm new-one
done
"$program" format new-one 256 > answer
cp whole-dump lines
updates 0 new-one
[ "$("$program" list new-one)" = "$("$program" list planned)" ] || fail 'an update by a dump makes another registry'

# A library of more than 8 MiB is installed, bound, replaced and read like any other, by each command.
larger() {
    echo "int large(void) { return $1; } char filler[9 << 20] = { $1 };" > large.c
    gcc -shared -fPIC -nostdlib -Wl,--hash-style=sysv,-soname,liblarge.so -o liblarge.so large.c
    [ "$(stat -c %s liblarge.so)" -gt $((9 << 20)) ] || fail 'the large library is small'
}
larger 5
make_program large
"$program" format wide 65536 > answer
"$program" install wide liblarge.so > answer || fail "a library of 9 MiB is not installed: $(cat answer)"
"$program" bind wide plarge 0x400000 > image || fail "a library of 9 MiB is not bound: $(cat image)"
[ "$(tail -n 1 image)" = end ] && [ "$(stat -c %s image)" -gt $((18 << 20)) ] || fail 'the image of 9 MiB is cut'
"$program" image liblarge.so 0x400000 > image || fail "a program of 9 MiB is not bound: $(cat image)"
ends 0 file wide liblarge.so
cmp -s said liblarge.so || fail 'the bytes of 9 MiB differ'
ends 0 dump wide
"$program" format wide-too 65536 > answer
"$program" script wide-too < said > answer || fail "a library of 9 MiB is not installed by a script: $(tail -n 1 answer)"
larger 6
python3 -c 'print("replace", open("liblarge.so", "rb").read().hex())' > lines
{ line 'bind 0x400000' plarge; echo commit; } >> lines
ends 0 update wide < lines
printf 'planned\nbound\nok\n' | cmp -s - said || fail "an update of 9 MiB told $(cat said)"
ends 0 replace wide-too liblarge.so
"$program" replace wide-too liblarge.so > answer || fail "a library of 9 MiB is not replaced: $(cat answer)"
[ "$("$tool" digest wide)" = "$(sha256sum liblarge.so)" ] && [ "$("$tool" digest wide-too)" = "$(sha256sum liblarge.so)" ] ||
    fail 'the digest of 9 MiB is another one'
ends 0 check wide
ends 0 bindings wide plarge 0x400000
ends 0 executable wide plarge 0x400000
cp said alone
exits 6 ./alone
[ -z "$run" ] || exits 6 "$run" wide ./plarge
rm wide wide-too image lines said

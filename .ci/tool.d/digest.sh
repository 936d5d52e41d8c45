# digest: prints the same as sha256sum for the files, in the registry's order, even if sha256sum escapes
# a name. A changed byte of code, which `check` doesn't detect, changes the digest.
gcc -shared -fPIC -nostdlib -Wl,--hash-style=sysv -Wl,-soname,'lib\\n\4.so' -o 'lib\\n\4.so' l1.c
sums=(libl3.so 'lib\\n\4.so' libl1.so)
"$program" format sums 256 > answer
ends 0 digest sums
[ ! -s said ] || fail 'an empty registry has digests'
for file in "${sums[@]}"; do "$program" install sums "$file" > answer; done
sha256sum "${sums[@]}" > wanted
ends 0 digest sums
[ ! -s told ] || fail 'digests told something'
cmp -s said wanted || fail "digest told $(cat said)"
[ "$(cut -c 1 said | tr -d '0-9a-f\n')" = '\' ] || fail 'one name is to be escaped'
sha256sum --quiet -c said || fail 'sha256sum refuses the digests'
damage sums $(($(place sums libl1.so) + $(code libl1.so)))
ends 0 check sums
ends 0 digest sums
[ "$(diff wanted said | grep -c '^[<>]')" = 2 ] || fail 'a changed byte of code is not seen, or more'
"$tool" file sums libl1.so | sha256sum | cut -d ' ' -f 1 > wanted
tail -n 1 said | cut -d ' ' -f 1 | cmp -s - wanted || fail 'the digest is of other bytes'

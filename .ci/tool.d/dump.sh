# The dump makes the same registry.
ends 0 dump old
[ ! -s told ] || fail 'a whole dump told something'
line=$(sed -n 's/^    \({ printf .*; }\) | rlibreg script DISK$/\1/p' "$docs/COMMANDS.md")
[ -n "$line" ] && [ "$(eval "${line/FILE/libl1.so}")" = "$(head -n 1 said)" ] ||
    fail 'by the words of docs/COMMANDS.md the line of a file is another one'
if command -v strace > /dev/null; then
    strace -qq -e trace=write -e signal=none -o writes "$tool" dump old > said
    python3 - writes said << 'END' || fail 'a piece of a dump is too long, or ends at the end of a line'
import re, sys
log, text = open(sys.argv[1]).read(), open(sys.argv[2], 'rb').read()
at, ends = 0, []
for length in re.findall(r'^write\(1, .* = (\d+)$', log, re.M):
    at += int(length)
    ends.append(at)
    assert int(length) <= 4096
assert at == len(text) and len(ends) > 2
assert all(text[end - 1:end] != b'\n' for end in ends[:-1])
END
fi
"$program" format new 512 > answer
"$program" script new < said > answer
[ "$("$program" list old)" = "$("$program" list new)" ] || fail 'the listings differ'
for n in 1 2 3; do
    ends 0 file new "libl$n.so"
    cmp -s said "libl$n.so" || fail "the bytes of libl$n.so differ"
done
ends 0 check new
[ "$(grep -c '^ok ' said)" = 3 ] || fail 'a sound library is not ok'

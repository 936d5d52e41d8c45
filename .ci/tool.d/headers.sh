# More than 73 program headers: four of the program and of each library, and three more.
"$program" format many 1024 > answer
needs=()
for n in $(seq 17); do
    make_library "many$n" "$n"
    "$program" install many "libmany$n.so" > answer
    needs+=("libmany$n.so")
done
sed 's/l1()/many1()/; s/ l1(/ many1(/' pl1.c > many.c
for n in 16 17; do
    gcc -O1 -fPIC -nostdlib -fno-stack-protector -pie -Wl,--hash-style=sysv,-e,_start,--no-as-needed \
        -o "many$n" many.c "${needs[@]:0:$n}"
    ends 0 executable many "many$n" 0x400000
    [ "$(count)" = $((4 * n + 7)) ] || fail "of $n libraries other headers"
    [ "$n" = 16 ] || told 'rlibreg-tool: Linux before 6.17 starts no file with more than 73 program headers'
    [ "$n" = 17 ] || told ''
done

# As many program headers as Linux accepts (1,170), and then one more, which is refused. For each program
# header the program has another page, with eight bytes of its file; the permissions of the pages
# alternate. Linux starts the program from 6.17 on.
gcc -O1 -fPIC -nostdlib -fno-stack-protector -shared -Wl,--hash-style=sysv,-e,_start -o few shared.c
ends 0 executable many few 0x400000
python3 - few $((1170 - $(count))) << 'END'
import struct, sys
file = open(sys.argv[1], 'rb').read()
at, count = struct.unpack_from('<Q', file, 32)[0], struct.unpack_from('<H', file, 56)[0]
headers = [struct.unpack_from('<IIQQQQQQ', file, at + 56 * n) for n in range(count)]
end = max(address + size for kind, _, _, address, _, _, size, _ in headers if kind == 1)
page = (end + 4095) // 4096
for name, more in ('most', int(sys.argv[2])), ('over', int(sys.argv[2]) + 1):
    added = [(1, 4 + n % 2 * 2, 0, 4096 * (page + n), 0, 8, 8, 1) for n in range(more)]
    table = b''.join(struct.pack('<IIQQQQQQ', *header) for header in headers + added)
    front = file[:32] + struct.pack('<Q', len(file)) + file[40:56] + struct.pack('<H', count + more) + file[58:]
    open(name, 'wb').write(front + table)
END
ends 0 executable many most 0x400000
[ "$(count)" = 1170 ] || fail "the executable of most program headers has $(count)"
told 'rlibreg-tool: Linux before 6.17 starts no file with more than 73 program headers'
if [ "$(printf '%s\n' 6.17 "$(uname -r)" | sort -V | head -n 1)" = 6.17 ]; then
    cp said alone
    exits 43 ./alone
else
    echo 'skipped: a start of 1,170 program headers: Linux is older than 6.17'
fi
ends 1 executable many over 0x400000
told 'rlibreg-tool: refused TooManyHeaders'

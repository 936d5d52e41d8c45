# An output that is full, and a disk that another process has locked.
printf 'preload\ncommit\n' > lines
for form in info check digest dump 'file libl1.so' 'executable pl1 0x400000' 'bindings pl1 0x400000' update 'replace libl2.so' \
    'remove libl2.so'; do
    read -r name word <<< "$form"
    status=0
    "$tool" "$name" new $word < lines > /dev/full 2> told || status=$?
    [ "$status" = 3 ] || fail "$name ended with $status at a full output"
    told 'rlibreg-tool: cannot write'
done
ends 1 file new libl2.so
told 'rlibreg-tool: refused C3 NotInstalled'
cp new before
status=0
"$tool" remove new libl4.so >> new 2> told || status=$?
[ "$status" = 3 ] || fail "a disk behind the output: $status"
ends 3 update new < new
told 'rlibreg-tool: cannot read new'
cmp -s new before || fail 'a disk behind a stream was written to'
exec 9<> new
flock 9
ends 3 info new
told 'rlibreg-tool: cannot read new'
flock -u 9
flock -s 9
ends 0 info new
ends 0 executable new pl1 0x400000
ends 0 bindings new pl1 0x400000
ends 3 remove new libl4.so
told 'rlibreg-tool: cannot read new'
ends 3 replace new libl4.so
ends 3 update new < lines
cmp -s new before || fail 'a disk that is held was written to'
exec 9>&-
ends 0 remove new libl4.so

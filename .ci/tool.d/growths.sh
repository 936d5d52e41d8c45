# Each growth of memory is refused in turn. If the tool needs the growth, it has to report the refusal,
# leave the disk unchanged, and cut a script that it has begun. Otherwise the result has to be the
# usual one.
"$program" format sound 256 > answer
for n in 1 2 3; do "$program" install sound "libl$n.so" > answer; done
gcc -O1 -shared -fPIC -o refuse.so "$bench/gate/refuse.c"
grows() {
    local count n front= tool=$dynamic
    [ "$1" != update ] || front='-n 1024'
    cp sound copy
    count=$(LD_PRELOAD=./refuse.so "$tool" "$@" 2>&1 > wanted < lines) || fail "$* ended with $?"
    mv copy changed
    [[ $count =~ ^[1-9][0-9]*\ growths$ ]] || fail "$* told '$count', and not how many growths it has"
    for n in $(seq "${count% growths}"); do
        cp sound copy
        if REFUSE=$n LD_PRELOAD=$room/refuse.so "$tool" "$@" > said 2> told < lines; then
            cmp -s said wanted && cmp -s copy changed || fail "growth $n of $* changes what is done"
            continue
        fi
        export REFUSE=$n LD_PRELOAD=$room/refuse.so
        ends 4 "$@" < lines
        unset REFUSE LD_PRELOAD
        grep -q 'refused S11 OutOfMemory$' told said || fail "growth $n of $* is not told"
        cmp -s $front copy sound || fail "growth $n of $* leaves another disk"
        [ "$1" != dump ] || [ ! -s said ] || [ "$(tail -c 3 said)" = cut ] || fail "growth $n leaves a script"
    done
}
[ -n "$dynamic" ] || echo 'skipped: growths of memory that are refused, for which DYNAMIC is needed'
{ line replace libl2.so; line 'bind 0x200000' pl1; echo list; echo commit; } > lines
for form in info check digest dump 'file libl2.so' 'replace libl2.so' 'remove libl2.so' update 'executable pl1 0x200000' \
    'bindings pl1 0x200000'; do
    read -ra words <<< "$form"
    [ -z "$dynamic" ] || grows "${words[0]}" copy "${words[@]:1}"
done

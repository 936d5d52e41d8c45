# Changes of a sound disk by the tool and by `rlibreg` are the same.

# alike STATUS WORD ARGUMENT: checks that on a sound disk the tool has the same output and status as
# `rlibreg`, and writes the same bytes.
alike() {
    local status=0
    cp whole one
    cp whole other
    "$program" "$2" one "$3" > answer || status=$?
    [ "$status" = "$1" ] || fail "rlibreg $2 ended with $status"
    ends "$1" "$2" other "$3"
    [ ! -s told ] || fail "$2 $3 told something"
    cmp -s said answer || fail "$2 $3 told $(cat said) and not $(cat answer)"
    cmp -s one other || fail "$2 $3 wrote otherwise"
}
cp libl1.so large.so
head -c 100 small.so > cut.so
alike 0 replace small.so
alike 0 remove "$small"
alike 1 remove none
alike 1 remove ''
alike 1 replace cut.so
alike 1 replace large.so
"$program" preload whole "$small" > answer
alike 1 remove "$small"
rm whole
"$program" format whole 34 > answer
"$program" install whole libl1.so > answer
alike 1 replace libl1.so
alike 0 remove libl1.so

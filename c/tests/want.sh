# Functions that the tests share.

# want WHAT WANTED FOUND: if FOUND isn't WANTED, prints both with the name WHAT, and ends the test.
want() {
    if [ "$2" != "$3" ]; then
        printf '%s: wanted:\n%s\nfound:\n%s\n' "$1" "$2" "$3" >&2
        exit 1
    fi
}

# ended COMMAND..: prints the command's output, and after that a line with its status.
ended() {
    local status=0
    "$@" 2>&1 || status=$?
    echo "= $status"
}

# held_by HOLDER..: runs a process that locks a disk until let_go, which ends its standard input. The
# process gets a line, so that a script has a command to answer.
held_by() {
    mkfifo ends
    "$@" < ends > held.out &
    exec 9> ends
    echo list >&9
    until [ -s held.out ]; do sleep 0.01; done
}
let_go() {
    exec 9>&-
    wait
    rm ends held.out
}

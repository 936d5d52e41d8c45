# Limits of the address space and of the stack: refused memory is reported.

# in_memory KIND KIBIBYTES COMMAND WORD..: runs a command with a limit (-v of its address space, -s of
# its stack), and sets `status`. The shell's message about a signal is kept apart.
in_memory() {
    status=0
    { (ulimit "$1" "$2" && exec "${@:3}") < lines 2>&3 3>&- || status=$?; } 3>&2 2> lost
}

# tells_refusal COMMAND: checks that the output reports that memory was refused: a command's refusal only
# on standard output, and the tool's message in any case.
tells_refusal() {
    if [ "$1" = "$program" ]; then
        [ "$(cat said)" = 'refused S11 OutOfMemory' ] && [ ! -s told ]
    else
        grep -q 'refused S11 OutOfMemory$' told said
    fi
}

# Limits of the address space: from a limit under which no program starts, because the kernel or the
# loader of the C library ends it, to a limit that is large enough. If memory is refused, even for the
# stack, the status and a line report this.
cp sound copy
declare -A least
for form in "$tool replace libl2.so" "$tool update" "$tool executable pl1 0x200000" "$program list" "$program bind pl1 0x200000"; do
    read -r command word more <<< "$form"
    few=
    for kibibytes in $(seq 400 4 4000); do
        in_memory -v "$kibibytes" "$command" "$word" copy $more > said 2> told
        case $status in
            0) break ;;
            4)
                [ -n "$few" ] || least[$command]=$kibibytes
                few=yes
                tells_refusal "$command" || fail "$form in $kibibytes KiB told '$(cat said told)'"
                ;;
            127 | 139) [ -z "$few" ] || fail "$form in $kibibytes KiB ended with $status behind a start" ;;
            *) fail "$form in $kibibytes KiB ended with $status" ;;
        esac
    done
    [ -n "$few" ] && [ $status = 0 ] || fail "$form: no address space was too small, or none was enough"
done

# Small stacks, and memory that is refused at the beginning. The line is written to no file that an
# argument names, and a pipe without a reader changes no status.
for command in "$program" "$tool"; do
    for kibibytes in 64 128; do
        in_memory -s "$kibibytes" "$command" file copy libl1.so > said 2> told
        [ "$status" = 4 ] && tells_refusal "$command" ||
            fail "${command##*/} with $kibibytes KiB of stack ended with $status and told '$(cat said told)'"
    done
    for limit in '-s 64' "-v $((${least[$command]} + 100))"; do
        for words in 'replace copy libl2.so' 'replace libl2.so copy' 'replace link libl2.so'; do
            cp sound copy
            ln -sf copy link
            in_memory $limit "$command" $words >> copy 2> told
            [ "$status" = 4 ] && cmp -s copy sound || fail "$words with $limit wrote into its output, or ended with $status"
            [ "$command" = "$tool" ] || [ ! -s told ] || fail "$words with $limit told '$(cat told)'"
            in_memory $limit "$command" $words 2>> copy > said
            [ "$status" = 4 ] && cmp -s copy sound || fail "$words with $limit wrote into its errors, or ended with $status"
        done
        { sleep 0.2; in_memory $limit "$command" list copy; echo "$status" > ended; } 2>&1 | true
        [ "$(cat ended)" = 4 ] || fail "${command##*/} with $limit and without a reader ended with $(cat ended)"
    done
done

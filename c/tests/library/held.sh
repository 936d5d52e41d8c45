# Tests a file that is locked.

rm -f disk
./tool format disk 64 > /dev/null

held='tool: the file is locked
= 9'
held_by ./tool hold install disk "$data/strong.so"
want 'a list beside a change' "$held" "$(ended ./tool list disk)"
want 'a change beside a change' "$held" "$(ended ./tool remove disk b)"
./tool wait remove disk b > waited 9>&- &
sleep 0.1
want 'a change that waits' '' "$(cat waited)"
let_go
want 'after it has waited' ok "$(cat waited)"
want 'what it left' 'end' "$(./tool list disk)"

held_by ./tool hold list disk
want 'a list beside a list' 'end
= 0' "$(ended ./tool list disk)"
want 'a change beside a list' "$held" "$(ended ./tool install disk "$data/strong.so")"
let_go
want 'a change after it' 'ok
= 0' "$(ended ./tool install disk "$data/strong.so")"

# The program takes the same lock as the library. A change by the program tries for two seconds to get it.
shut_out='rlibreg: cannot read disk
= 3'
# tries TENTHS TENTHS COMMAND..: checks that a command gives up after this many tenths of a second at
# least, and at most.
tries() {
    local began=${EPOCHREALTIME/[.,]/} took
    want "${*:3}" "$shut_out" "$(ended "${@:3}")"
    took=$(((${EPOCHREALTIME/[.,]/} - began) / 100000))
    [ $took -ge $1 ] && [ $took -lt $2 ] || { echo "${*:3} took $took tenths" >&2; exit 1; }
}
held_by ./tool hold replace disk "$data/strong.so"
tries 0 15 "$rlibreg" list disk
tries 19 60 "$rlibreg" remove disk b &
tries 19 60 "$rlibreg" format disk 64
wait $!
let_go
held_by ./tool hold list disk
want 'its list beside a list' 'library b 376
end
= 0' "$(ended "$rlibreg" list disk)"
tries 19 60 "$rlibreg" remove disk b
let_go
held_by ./tool hold list disk
"$rlibreg" replace disk "$data/strong.so" > waited 9>&- &
sleep 0.1
want 'its change, which tries' '' "$(cat waited)"
let_go
want 'after it has tried' ok "$(cat waited)"
want 'its change, later' 'ok
= 0' "$(ended "$rlibreg" remove disk b)"

held_by "$rlibreg" script disk
want 'a list beside its script' "$held" "$(ended ./tool list disk)"
want 'a change beside its script' "$held" "$(ended ./tool install disk "$data/strong.so")"
./tool wait install disk "$data/strong.so" > waited 9>&- &
sleep 0.1
want 'a change that waits for it' '' "$(cat waited)"
let_go
want 'after it has waited for it' ok "$(cat waited)"

# A process that has locked the disk and then runs the program shuts the program out. If the process
# has locked another file, the program waits.
want 'flock of the disk' "$shut_out" "$(ended flock disk "$rlibreg" list disk)"
held_by flock disk.lock ./tool hold list disk
flock disk.lock "$rlibreg" remove disk b > waited 9>&- &
sleep 0.1
want 'a change that waits for another file' '' "$(cat waited)"
let_go
want 'after it has waited for that' ok "$(cat waited)"

# The name under which a disk is made is locked.
touch .new.rlibreg-new
held_by flock .new.rlibreg-new cat
want 'a making beside another' "$held" "$(ended ./tool format new 64)"
want 'one by the program' 'rlibreg: cannot read new
= 3' "$(ended "$rlibreg" format new 64)"
./tool wait format new 64 > waited 9>&- &
sleep 0.1
want 'one that waits' '' "$(cat waited)"
want 'what they left' '.new.rlibreg-new' "$(ls -A | grep new)"
let_go
want 'after it has waited for that' ok "$(cat waited)"
want 'what that left' new "$(ls -A | grep new)"

# A process that waits for a disk finds the new file after the disk was replaced.
held_by ./tool hold list disk
./tool wait install disk "$data/strong.so" > waited 9>&- &
sleep 0.1
cp disk other
mv other disk
let_go
want 'a file in the place of another' "library b 376
end" "$("$rlibreg" list disk)"
echo 'held: a file that another process holds is refused or waited for'

# Waiting for a locked disk.

# held SECONDS: locks the disk `held` for this time, by a process in the background.
held() {
    (exec 9<> held && flock -x 9 && exec sleep "$1") &
    until ! flock -n -x held true; do sleep 0.01; done
}

# takes LEAST MOST WORDS..: checks that a command takes at least LEAST and less than MOST tenths of a
# second.
takes() {
    local begun=${EPOCHREALTIME/./} tenths
    "${@:3}"
    tenths=$(((${EPOCHREALTIME/./} - begun) / 100000))
    [ "$tenths" -ge "$1" ] && [ "$tenths" -lt "$2" ] || fail "${*:3} took $tenths tenths of a second"
}

cp old held
locked='rlibreg-tool: cannot read held'
for words in '' --wait '--wait 1' '--wait x info held' '--wait -1 info held' '--wait 1.5 info held' '--wait 1000000000 info held' \
    '--wait 1 --wait 1 info held' '--help info' '--version 1' 'info --wait 1 held'; do
    ends 2 $words
    told "$usage"
done
ends 2 --wait '' info held
for wait in 0 999999999 forever; do ends 0 --wait $wait info held; done
held 30
holder=$!
takes 0 20 ends 3 info held
takes 0 20 ends 3 --wait 0 info held
told "$locked"
takes 0 20 ends 3 --wait 0 remove held libl2.so
told "$locked"
takes 10 100 ends 3 --wait 1 info held
told "$locked"
takes 10 100 ends 3 --wait 1 remove held libl2.so
takes 20 100 ends 3 remove held libl2.so
cmp -s held old || fail 'a disk that is locked was written to'

# A signal ends the wait.
for wait in 20 forever; do
    status=0
    timeout -s INT 0.5 "$tool" --wait $wait info held > said 2> told || status=$?
    [ "$status" = 124 ] && [ ! -s told ] && [ ! -s said ] ||
        fail "a wait that was interrupted ended with $status, or wrote something"
done
kill "$holder"
wait "$holder" 2> /dev/null || true
held 2
takes 5 100 ends 0 --wait 20 info held
held 2
echo commit > lines
takes 5 100 ends 0 --wait forever update held < lines
[ "$(cat said)" = ok ] || fail "an update that waited: $(cat said)"

for word in --help --version; do
    ends 0 $word
    [ ! -s told ] && [ -s said ] || fail "$word wrote nothing, or an error"
    status=0
    "$tool" $word > /dev/full || status=$?
    [ "$status" = 3 ] || fail "$word at a full output: $status"
done
[ "$("$tool" --version)" = "rlibreg-tool $("$bench/../c/version.sh")" ] || fail 'another version'

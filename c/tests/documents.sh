# Tests docs/C.md: its two programs compile, and its commands print the lines below them. The example of
# rlibreg.h prints the libraries of a disk.

page=$here/../../docs/C.md
mkdir c
ln -s "$built" c/out
for name in updater host; do
    block=$((${block:-0} + 1))
    awk -v block=$block '/^```$/ {inside = 0} inside; /^```c$/ {inside = ++seen == block}' \
        "$page" > $name.c
    lines=$(wc -l < $name.c)
    [ "$lines" -gt 40 ] && [ "$lines" -lt 90 ] || { echo "$name.c has $lines lines" >&2; exit 1; }
    gcc $checked -o checked $name.c "$built/librlibreg.a"
done
gcc $checked -Dmain=updater_main -c updater.c
gcc $checked -o updating "$here/library/updating.c" updater.o $watched $beside
mkdir updating.files
(cd updating.files && ../updating "$data/strong.so" b)

# Runs the command of each line `    $ COMMAND`, and compares its output with the lines up to the
# next command.
rm -f disk
command= wanted=
count=0
compare() {
    [ -n "$command" ] || return 0
    eval "$command" > found 2>&1 || true
    want "$command" "$wanted" "$(cat found)"
    count=$((count + 1))
}
while IFS= read -r line; do
    case $line in
        '    $ '*) compare; command=${line#    \$ }; wanted= ;;
        '    '*) wanted=$wanted${wanted:+$'\n'}${line#    } ;;
        *) compare; command= ;;
    esac
done < "$page"
compare
[ $count -gt 10 ] || { echo "docs/C.md has only $count commands" >&2; exit 1; }
echo "documents: two programs and $count commands of docs/C.md: as written"

# The example of rlibreg.h runs on the disk that these commands have left.
sed -n '/^ \* EXAMPLE$/,/^ \* LAYERS$/s/^ \*     //p' "$here/../rlibreg.h" > example.c
gcc $checked -o example example.c "$built/librlibreg.a"
want 'the example of rlibreg.h' libone.so "$(./example)"

# The host reports plugins and disks that it can't read.
truncate -s $((8192 * 512 + 1)) long
for file in none . long; do
    case $file in
        none) why='No such file or directory' ;;
        .) why='Is a directory' ;;
        *) why='it is too long' ;;
    esac
    want "the plugin $file" "host: $file: $why
= 1" "$(ended ./host disk $file 1)"
    [ $file = . ] && why='Invalid argument'
    want "the disk $file" "host: $file: $why
= 1" "$(ended ./host $file plugin 1)"
done
held_by ./tool hold install disk libone.so
./host disk plugin 1 > waited 9>&- &
sleep 0.1
want 'a host that waits' '' "$(cat waited)"
let_go
want 'after it has waited' 100 "$(cat waited)"

# The two programs are killed at each system call, and run again. Two updaters also run at the same
# time.
gcc $flags -o killed "$here/killed.c"
status=0
./killed 0 true 2> lost || status=$?
[ $status = 77 ] || { echo "documents: nothing is killed here ($(cat lost))"; exit 0; }
cp libone.so libother.so
LC_ALL=C sed -i 's/libone\.so/libsix.so/g' libother.so
listed() {
    "$rlibreg" list disk | sed 's/ [0-9]*$//' | LC_ALL=C sort
}
names='end
library libone.so
library libsix.so'
kills=0
for before in nothing empty zeros one; do
    for ((number = 0; ; number++)); do
        rm -f disk .disk.rlibreg-new
        case $before in
            empty) : > disk ;;
            zeros) truncate -s $((8192 * 512)) disk ;;
            one) cp one.disk disk ;;
        esac
        ./updater disk libother.so > beside &
        status=0
        ./killed $number ./updater disk libone.so > found 2>&1 || status=$?
        wait $! || { cat beside >&2; exit 1; }
        want 'beside an updater that is killed' 'libother.so: ok' "$(cat beside)"
        want 'an updater that was killed' 'libone.so: ok' "$(./updater disk libone.so)"
        want 'what they leave' "$names" "$(listed)"
        [ $status = 77 ] || break
        kills=$((kills + 1))
    done
    want 'one that was not killed' 0 $status
    cp disk one.disk
done
for ((number = 0; ; number++)); do
    status=0
    ./killed $number ./host disk plugin 1 > found 2>&1 || status=$?
    [ $status = 77 ] || break
    kills=$((kills + 1))
done
want 'the host' 100 "$(cat found)"
cmp disk one.disk
echo "documents: killed at $kills calls of the system, beside another: the updater succeeds then"

# Cuts each change on small disks at each step (cuts.c).

# cut_change CHANGE [WORD]..: cuts a change of the disk `disk`, and then makes the change on the disk.
cut_change() {
    ./cuts "$rlibreg" left disk "$data/program-1.so" "$@"
    ./tool "$1" disk "${@:2}" > /dev/null
}

# Free sectors get arbitrary bytes, so that no old content equals a new one.
yes rlibreg 2> /dev/null | head -c $((24 * 512)) > disk || true
./cuts "$rlibreg" left disk "$data/program-1.so" format
./tool format disk 24 > /dev/null
cut_change install "$data/strong.so"    # b, of one sector, which the program needs
cut_change install "$data/long.so"      # a, of three sectors
cut_change preload a b
cut_change replace "$data/protected.so" # b
cut_change replace "$data/longer.so"    # a, of four sectors
cut_change preload b
cut_change remove a
cut_change preload
cut_change remove b

# Several changes in one plan; then the disk gets each change by itself. Sectors that an update has
# written and no longer uses are written again by its later changes. A change of preloads writes only the
# root.
cut_update() {
    ./cuts "$rlibreg" left disk "$data/program-1.so" update "$@"
}
cut_update install "$data/strong.so"
cut_update install "$data/strong.so" , install "$data/long.so" , preload a b
./tool install disk "$data/strong.so" > /dev/null
cut_update install "$data/long.so" , remove a
./tool install disk "$data/long.so" > /dev/null
cut_update replace "$data/protected.so" , preload b , remove a
cut_update remove b , install "$data/protected.so" , remove a
cut_update replace "$data/protected.so" , replace "$data/strong.so" , replace "$data/protected.so"
cut_update preload a , preload b a
./tool remove disk b > /dev/null
./tool remove disk a > /dev/null

for old in one pair three; do
    cp "$data/old-$old.disk" disk
    chmod u+w disk
    cut_change upgrade
done

# From 64 libraries on there are two catalogues.
yes rlibreg 2> /dev/null | head -c $((160 * 512)) > disk || true
./tool format disk 160 > /dev/null
for number in {1..64}; do
    LC_ALL=C sed "s/x000/$(printf x%03d "$number")/" "$data/numbered.so" > numbered.so
    ./tool install disk numbered.so > /dev/null
done
cut_update install "$data/strong.so" , install "$data/no-symbols.so"
cut_change install "$data/strong.so"
cut_change replace "$data/protected.so"
cut_update remove x001 , remove x002
cut_change remove x001

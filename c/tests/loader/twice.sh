# Runs the tests of the loader again. Each start uses an image that was kept just before.

mkdir -m 700 twice twice/kept
ln tool run-kept run-taken within twice/
cd twice
gcc $flags -DRUN="\"$PWD/run-kept\"" -DBUILT="\"$built/rlibreg-run\"" \
    -DFOLDER="\"$PWD/kept\"" -DSAID="\"$PWD/said\"" -o rlibreg-run "$here/loader/twice.c"
plain=./run-taken bases=1 debugged="$built/rlibreg-run -c ../kept"
for part in loader starting initializers; do
    (. "$here/loader/$part.sh")
done
taken=$(grep -c 'its image is taken' said)
[ "$taken" -ge 40 ] || { echo "images were taken in $taken starts" >&2; exit 1; }
want 'images that were kept in the second start' 0 "$(grep -c 'the image is kept' said || true)"
echo "twice: $taken starts from images that were kept, as without"

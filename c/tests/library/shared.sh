# Tests the shared library: its exports, how it is linked, and a program that is linked with it. The
# names of the tests of a file are those of the stored cases, which name every test.

shared=$built/librlibreg.so
soname=$(basename "$(readlink "$shared")")
want 'its file' "librlibreg.so.$("$here/../version.sh")" "$(basename "$(realpath "$shared")")"
want 'its SONAME' "$soname" \
    "$(readelf -dW "$shared" | sed -n 's/.*Library soname: \[\(.*\)\]/\1/p')"
want 'the calls of the header, and no other name' \
    "$(nm -g --defined-only "$built/librlibreg.a" | awk '$3 ~ /^rlibreg_/ {print $3}' | sort |
        grep -wFxf <(grep -o 'rlibreg_[a-z_]*' "$built/rlibreg.h"))" \
    "$(nm -D --defined-only "$shared" | awk '{print $3}' | sort)"
headers=$(readelf -dlW "$shared")
for wanted in 'GNU_RELRO' 'BIND_NOW' 'GNU_STACK .* RW '; do
    grep -q "$wanted" <<< "$headers" || { echo "librlibreg.so has no $wanted" >&2; exit 1; }
done
want 'relocations in its text' '' "$(grep TEXTREL <<< "$headers" || true)"

for program in rlibreg rlibreg-tool rlibreg-run; do
    headers=$(readelf -hdlW "$built/$program")
    for wanted in 'Type: *DYN' 'GNU_RELRO' 'BIND_NOW' 'GNU_STACK .* RW '; do
        grep -q "$wanted" <<< "$headers" || { echo "$program has no $wanted" >&2; exit 1; }
    done
    if gcc -static -x c -o static - <<< 'int main(void) { return 0; }' 2> lost; then
        want "what $program needs to be started" '' "$(grep -E 'INTERP|NEEDED' <<< "$headers" || true)"
    fi
done

gcc $flags -o shared "$here/library/shared.c" -L"$built" -lrlibreg
want 'what the program needs' "$soname" \
    "$(readelf -dW shared | sed -n 's/.*Shared library: \[\(librlibreg.*\)\]/\1/p')"
named=$(sed -n 's/.* => .*refused \([BC]1 \)\?\(E[0-9]* [A-Za-z]*\).*/\2/p' "$data"/*.txt |
    sort -uV)
want 'a program of the shared library' "end
$named
unknown" "$(LD_LIBRARY_PATH=$built ./shared shared.disk)"
echo "shared: $soname exports the header's calls alone, and a program is linked with it"

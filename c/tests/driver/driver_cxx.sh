# A part of driver.sh: tests C++ with its standard library (c/cxx.sh).

cxx=$built/rlibreg_cxx-$(gcc -dumpfullversion)
soname=libstdc++-rlibreg.so.6
plus=rlibreg-g++
absent="C++'s standard library isn't installed for this gcc: install it"

# Without the library, programs that need it are refused, and the refusal says what to do. The driver
# doesn't take the library of another version of gcc.
mkdir bare
cp -a "$built"/rlibreg* bare
rm -rf bare/rlibreg_cxx-*
mkdir -p bare/rlibreg_cxx-1.2.3/include
echo '#include <iostream>' > asks.cc
want "a header of C++'s library that isn't installed" yes \
    "$(ended bare/$plus -c asks.cc | grep -q "#error \"$absent (rlibreg-gcc(1), \"C++\")" && echo yes)"
echo 'namespace std { void terminate(); } int main() { std::terminate(); }' > asks.cc
echo old > output
want "a function of C++'s library that isn't installed" "$plus: output: $absent, \
or compile all of it with -nostdlib++ (rlibreg-gcc(1), \"C++\")
= 1" "$(ended bare/$plus -o output asks.cc | tail -n 2)"
for words in '' -nostdlib++; do
    printf '%s\n' '#if __has_include(<version>)' '#error' '#endif' 'int main() { return 3; }' > asks.cc
    bare/$plus $words -o output asks.cc -lstdc++
    want "a program of C++ $words" '= 3' "$(ended "$built/rlibreg-run" disk ./output)"
done

if [ -d "$cxx" ]; then . "$here/driver/driver_cxx_library.sh"; else echo "left out: C++'s standard library"; fi

# A part of driver_threads.sh: tests the files that gcc makes with the plugin.

for linker in $linkers; do shares "gcc and $linker" $gcc $gcc $gcc -fuse-ld=$linker; done
"$built/rlibreg-tool" executable thread.disk threads 0x10000000 > alone
chmod +x alone
want 'an executable' "$ran" "$(ended ./alone)"
want 'where it is built' "$ran" "$(LD_LIBRARY_PATH=. ended ./threads)"
emulated_flto() { $gcc -flto "$@"; }
shares 'gcc with -flto' emulated_flto emulated_flto emulated_flto -flto
emulated_model() { $gcc -ftls-model=local-exec "$@"; }
shares 'gcc with a model' emulated_model emulated_model emulated_model
if command -v clang > told; then
    shares "a library of clang's" by_clang $gcc $gcc
    shares "a program of clang's" $gcc $gcc by_clang
fi
# An object file that is linked from two others; and a static link, which has gcc's own emulation.
$gcc -O1 -c driver_threads_one.c driver_threads_two.c driver_threads.c
$gcc -r -o both.o driver_threads_one.o driver_threads_two.o
$gcc -o threads both.o driver_threads.o
want 'one program' "$ran" "$(ended "$built/rlibreg-run" thread.disk ./threads)"
$gcc -static -o threads both.o driver_threads.o
want 'a static program' "$ran" "$(ended ./threads)"

$gcc -O2 -o memory driver_threads_memory.c
want 'a malloc that has thread-local data' '100 bytes of thread 0
100 bytes of thread 1
212 bytes of thread 2
= 0' "$(ended "$built/rlibreg-run" thread.disk ./memory)"

# A library has no emulation of its own, even if its command names gcc's emulation (-lgcc_eh).
$gcc -O1 -shared -o libthreads1.so driver_threads_one.o -lgcc_eh
want 'the emulation of a library' '                 U __emutls_get_address' \
    "$(nm libthreads1.so | grep emutls_get_address)"

# Version scripts name variables.
cat > exported.c << 'END_OF_FILE'
__thread int seen = 3, seen_too = 4, hidden = 5;
int one(void) { return seen + seen_too + hidden; }
END_OF_FILE
echo 'ONE { global: one; seen; local: *; }; TWO { global: seen_*; } ONE;' > exported.map
cat > asks.c << 'END_OF_FILE'
extern __thread int seen, seen_too;
int one(void);
int main(void) { return seen++ * 10 + seen_too + one(); }
END_OF_FILE
for linker in $linkers; do
    for words in '' -Wl,--no-gc-sections; do
        $gcc -fuse-ld=$linker -shared -o libexported.so exported.c -Wl,--version-script=exported.map $words
        want "$linker: exported variables" '__emutls_v.seen __emutls_v.seen_too one ' \
            "$(nm -D --defined-only libexported.so | sed 's/.* //' | sort | tr '\n' ' ')"
        $gcc -fuse-ld=$linker -o asks asks.c libexported.so
    done
done
"$built/rlibreg" install thread.disk libexported.so > told
want 'exported variables' '= 47' "$(ended "$built/rlibreg-run" thread.disk ./asks)"
echo 'ONE { global: one; local: *; };' > exported.map
$gcc -fuse-ld=bfd -shared -o libexported.so exported.c -Wl,--version-script=exported.map \
    -Wl,--no-undefined-version
want 'no undefined names' 'one ' "$(exported libexported.so)"

# C++, with objects of its own and of C.
if command -v g++ > told; then
    cat > number.cc << 'END_OF_FILE'
extern "C" int printf(const char *, ...);
struct number {
    static thread_local int all;
    int own = ++all;
};
thread_local int number::all = 40;
template <class it> it twice(it value) {
    static thread_local it last = 1;
    return last = value + last;
}
int main() {
    number one, other;
    twice(3);
    return printf("%d %d %d %ld\n", one.own, other.own, twice(4), twice(5l)) < 0;
}
END_OF_FILE
    rlibreg-g++ -nostdlib++ -O1 -o number number.cc
    want 'C++' '41 42 8 6
= 0' "$(ended "$built/rlibreg-run" thread.disk ./number)"
fi

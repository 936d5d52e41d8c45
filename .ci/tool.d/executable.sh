# Makes and runs executables of the programs that don't need the damaged library. A program that needs it
# is refused.
make_library none 0
make_library init '0; } __attribute__((constructor)) static void begin(void) {'
make_library fini '0; } __attribute__((destructor)) static void end(void) {'
for name in l1 l2 none init fini; do make_program "$name"; done
ends 0 executable old pl1 0x400000
cp said alone
chmod +x alone
exits 1 ./alone
ends 1 executable old pl2 0x400000
told 'rlibreg-tool: refused S5 Damaged'
ends 1 executable old pnone 0x400000
told 'rlibreg-tool: refused B3 Missing /program libnone.so'
ends 1 executable old pl1 0x400001
told 'rlibreg-tool: refused B2 BadBase'
ends 1 executable old pl1.c 0x400000
told 'rlibreg-tool: refused B1 E2 BadMagic'
ends 1 executable old "$samples/no-symbols.so" 0x400000
told 'rlibreg-tool: refused NoEntry'
cp whole initialized
"$program" install initialized libinit.so > answer
ends 1 executable initialized pinit 0x400000
told 'rlibreg-tool: refused Initializers libinit.so'
"$program" install initialized libfini.so > answer
ends 1 executable initialized pfini 0x400000
told 'rlibreg-tool: refused Finalizers libfini.so'
echo '__attribute__((section(".preinit_array"), used)) static void (*const first)(void) = 0;' |
    cat pl1.c - > first.c
gcc -O1 -fPIC -nostdlib -fno-stack-protector -pie -Wl,--hash-style=sysv,-e,_start -o first first.c libl1.so
ends 1 executable old first 0x400000
told 'rlibreg-tool: refused PreInitializers'
echo '__asm__(".section .note.own, \"a\", @note\n.balign 4\n.long 8, 0, 1\n.asciz \"rlibreg\"\n.text");' |
    cat first.c - > calls.c
gcc -O1 -fPIC -nostdlib -fno-stack-protector -pie -Wl,--hash-style=sysv,-e,_start,--build-id -o calls calls.c libl1.so
ends 0 executable old calls 0x400000
cp said alone
exits 1 ./alone
gcc -O1 -fPIC -nostdlib -fno-stack-protector -pie -Wl,--hash-style=sysv,-e,_start,--no-dynamic-linker \
    -o static pl1.c libl1.so
ends 1 executable old static 0x400000
told 'rlibreg-tool: refused StaticPie'
ends 3 executable old nothing 0x400000
told 'rlibreg-tool: cannot read nothing'

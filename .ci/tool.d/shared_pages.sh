# Segments that share pages: code and data in one page; code and constants in one, and constants and data
# in another, with a page of constants only between them. Then a segment that may be both written and
# executed. The program's own pages come first, before those of the preloads.
cat > shared.c <<'END'
static volatile int count = 41;
static const char text[9000] = {[7000] = 1};
int at = 7000;
void _start(void) {
    count++;
    __asm__ volatile("syscall" : : "a"(60), "D"(count + text[at]));
    __builtin_unreachable();
}
END
(cat shared.c && echo '__asm__(".section .own, \"awx\", @progbits\n.long 0\n");') > own.c
make_shared() {
    gcc -O1 -fPIC -nostdlib -fno-stack-protector -pie -fuse-ld=bfd -o "$1" "$2" \
        "-Wl,--hash-style=sysv,-e,_start,-z,norelro,-z,common-page-size=512,-z,max-page-size=$3" 2> warned || fail "$(cat warned)"
}
make_shared both shared.c 512,-z,noseparate-code
make_shared apart shared.c 512,-z,separate-code,-Ttext=0x20000
make_shared own own.c 4096
ends 1 executable old both 0x400000
told 'rlibreg-tool: refused WritableCode /program'
for form in apart own; do
    ends 0 executable old $form 0x400000
    cp said alone
    exits 43 ./alone
    [ $form = own ] || readelf -lW alone | sed -n 's/^ *LOAD *0x[0-9a-f]* 0x0*\([0-9a-f]*\) .* \(R..\) 0x1000$/\1 \2/p' | sed -n 's/ *$//; 1,5p' > answer
done
printf '%s\n' '3ff000 R' '400000 R' '420000 R E' '421000 R' '422000 RW' | cmp -s - answer ||
    fail "pages permit otherwise: $(cat answer)"

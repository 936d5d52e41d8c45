/* A program with a segment that may be written and executed: it writes into its own code. It is
 * also used as a library. */
#include "start.h"

__asm__(".section .both, \"awx\", @progbits\n"
        ".hidden answer\n"
        "answer:\n"
        "  mov $1, %eax\n"
        "  ret\n"
        ".previous\n");
extern unsigned char answer[] __attribute__((visibility("hidden")));

void begin(uint64_t *stack, uint64_t at_end) {
    (void)stack, (void)at_end;
    ((volatile unsigned char *)answer)[1] = 2; /* the number in the instruction */
    say(((int (*)(void))(uint64_t)answer)() == 2 ? "rewritten\n" : "not rewritten\n");
    leave(0);
}

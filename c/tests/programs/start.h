/* The entry of a program without a C library, and calls of the kernel. */
#include "say.h"

/* The stack as the program is entered, with the arguments, the environment and the auxiliary vector;
 * and the function to call at the end, or 0. */
void begin(uint64_t *stack, uint64_t at_end);
__asm__(".globl _start\n"
        ".hidden begin\n"
        "_start:\n"
        "  mov %rsp, %rdi\n"
        "  mov %rdx, %rsi\n"
        "  call begin\n"
        "  ud2\n");

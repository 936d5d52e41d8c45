/* A library whose functions are compiled with a stack protector: each frame holds the secret value
 * of the thread. The library also has the function that it and its program call if the value in a
 * frame has changed. */
#include "say.h"

void __stack_chk_fail(void);
void __stack_chk_fail(void) {
    leave(9);
}

__attribute__((constructor)) static void guarded(void) {
    volatile char frame[16] = " guarded";
    say((const char *)frame);
}

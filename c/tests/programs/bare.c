/* A program without initializers of its own: it prints a line when it is entered, and at its end
 * calls the function whose address the loader passed to it. */
#include "start.h"

void begin(uint64_t *stack, uint64_t at_end) {
    (void)stack;
    say(" entered");
    if (at_end) ((void (*)(void))at_end)();
    leave(0);
}

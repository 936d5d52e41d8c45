/* A program that uses the libraries of objects.cc and given.c. */
#include "start.h"

extern int objects(void), is_given(const uint64_t *stack);
extern void write_fixed(void);

void begin(uint64_t *stack, uint64_t at_end) {
    say(is_given(stack) ? " given" : " not given");
    if (stack[0] > 1) write_fixed();
    say(" "), say_number((uint64_t)objects());
    ((void (*)(void))at_end)();
    say(" "), say_number((uint64_t)objects()), say("\n");
    leave(0);
}

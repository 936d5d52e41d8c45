/* A program that needs libtwo.so, which needs libone.so. */
#include "start.h"

extern int one_count, two(void), nobody_is_there(void);
extern const char *who(void);
static const char *(*const ask)(void) = who;
int own_count = 5;

void begin(uint64_t *stack, uint64_t at_end) {
    (void)stack, (void)at_end;
    one_count += 10;
    say(ask()), say(" ");
    say_number((uint64_t)two()), say(" ");
    say_number((uint64_t)one_count), say(nobody_is_there() ? " somebody\n" : " nobody\n");
    leave(one_count + own_count);
}

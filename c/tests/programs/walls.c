/* A program that touches memory that it may not touch. Its first argument selects the memory. */
#include "start.h"

static const char constant[] = "constant";
static char variable[] = { (char)0xc3, 0 };
static const char *const fixed[] = { constant }; /* an address, which only the loader writes */
static char *volatile at;

void begin(uint64_t *stack, uint64_t at_end) {
    (void)at_end;
    const char *what = ((char **)(stack + 1))[1];
    say("before\n");
    if (what[0] == 'c') at = (char *)constant;
    if (what[0] == 'f') at = (char *)fixed;
    if (what[0] == 't') at = (char *)(uint64_t)begin;
    if (what[0] == 'v') at = variable;
    if (what[0] == 'x') {
        at = variable;
        ((void (*)(void))(uint64_t)at)();
    } else {
        *at = 1;
    }
    say("after\n");
    leave(0);
}

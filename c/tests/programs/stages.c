/* A program that prints a line when it is entered. At its end it calls the function whose address
 * the loader passed to it: twice without an argument, once with one argument, and not at all with
 * two arguments. */
#include "start.h"

static void before(int argc, char **argv, char **variables) {
    (void)variables;
    say("before "), say_number((uint64_t)argc), say(" "), say(argv[0]);
}

/* The program's own functions: the first is called before all others. The others would have to be
 * called by the program's start code, which doesn't call them. */
__attribute__((section(".preinit_array"), used)) static void (*const preinit)(int, char **,
                                                                              char **) = before;
__attribute__((constructor)) static void own(void) {
    say(" own");
}
__attribute__((destructor)) static void own_end(void) {
    say(" own-end");
}

void begin(uint64_t *stack, uint64_t at_end) {
    say(" entered");
    for (uint64_t times = stack[0]; at_end && times < 3; times++) ((void (*)(void))at_end)();
    say(at_end ? "\n" : " nothing at the end\n");
    leave(0);
}

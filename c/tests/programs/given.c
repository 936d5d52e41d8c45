/* A library that keeps the arguments of its initializer. */
#include "say.h"

static int count;
static char **words, **all_variables;

__attribute__((constructor)) static void keep(int argc, char **argv, char **variables) {
    count = argc;
    words = argv;
    all_variables = variables;
}

/* Returns whether the program has the arguments that the initializer got. */
int is_given(const uint64_t *stack) {
    char **own = (char **)(stack + 1);
    return (uint64_t)count == stack[0] && words == own && all_variables == own + count + 1;
}

/* An address, which only the loader writes, before the start. */
static int *const fixed[] = { &count };

void write_fixed(void) {
    *(int *volatile *)fixed = 0;
}

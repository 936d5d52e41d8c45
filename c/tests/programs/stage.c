/* A library that prints a line in each of its initializers and finalizers. NAME is its name. With the
 * linker's -init and -fini, the first and the last of these functions are called too. */
#include "say.h"

#define TELLS(stage, how)                                                                          \
    how void stage(void) {                                                                         \
        say(" " NAME "-" #stage);                                                                  \
    }

TELLS(early, __attribute__((constructor(101))) static)
#ifndef BRIEF
TELLS(first, )
TELLS(late, __attribute__((constructor)) static)
TELLS(soon, __attribute__((destructor)) static)
TELLS(then, __attribute__((destructor(101))) static)
TELLS(last, )
#endif

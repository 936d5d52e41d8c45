/* A library that prints a line when it ends, through the program's C library. */
#include <stdio.h>

static void __attribute__((destructor)) end(void) { puts("last ends"); }

int last(void) { return 5; }

/* A program that prints a line when it ends. */
#include <stdio.h>

int last(void);

static void __attribute__((destructor)) end(void) { puts("main ends"); }

int main(void) {
    puts("main");
    return last();
}

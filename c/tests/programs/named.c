/* A library that uses the program's C library to print its name when it is initialized and when it
 * is finalized. */
#include <stdio.h>
#include <stdlib.h>
#include <string.h>

static char *name;

static void __attribute__((constructor)) begin(void) {
    free(malloc(5000));
    name = strdup(NAME);
    printf("+%s ", name);
}

static void __attribute__((destructor)) end(void) {
    printf("-%s ", name);
    free(name);
}

int FUNCTION(void) { return !strcmp(name, NAME); }

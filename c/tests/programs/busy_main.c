/* A program that prints the results of the constructor of busy.c. */
#include <stdio.h>
#include <stdlib.h>
#include <string.h>

int busy(void);

static void __attribute__((destructor)) end(void) { printf("main ends "); }

static const char *in(char **variables, const char *name) {
    size_t size = strlen(name);
    while (*variables && strncmp(*variables, name, size)) variables++;
    return *variables ? *variables + size : "none";
}

int main(int count, char **words, char **variables) {
    printf("main %d %s %d %s %s ", count, words[1], busy(), getenv("SET"), in(variables, "SET="));
    return 5;
}

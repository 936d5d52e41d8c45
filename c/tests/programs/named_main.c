/* A program that needs libraries of named.c. It prints the names of those that were initialized
 * before it, and a line at its own beginning and end. */
#include <stdio.h>

int a(void), b(void);

static void before(void) { printf("before "); }
__attribute__((section(".preinit_array"), used)) static void (*const first)(void) = before;
static void __attribute__((constructor)) begin(void) { printf("+main "); }
static void __attribute__((destructor)) end(void) { printf("-main "); }

int main(void) {
    printf("%d%d ", a(), b());
    return 4;
}

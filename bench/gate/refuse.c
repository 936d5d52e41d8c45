/*
 * Refuses one growth (request for memory) of a program, the one whose number is in REFUSE. Without
 * REFUSE, or if it is 0, refuses none, and prints at the end how many growths there were.
 *
 *     gcc -O1 -shared -fPIC -o refuse.so bench/gate/refuse.c
 *     REFUSE=7 LD_PRELOAD=./refuse.so PROGRAM ..
 *
 * It replaces the calls of glibc by which compiled Rattle gets its memory.
 */
#include <errno.h>
#include <stdio.h>
#include <stdlib.h>

void *__libc_malloc(size_t bytes);
void *__libc_calloc(size_t count, size_t bytes);
void *__libc_realloc(void *kept, size_t bytes);
void *__libc_memalign(size_t align, size_t bytes);

static unsigned long growths, refused;

__attribute__((constructor)) static void begin(void) {
    const char *number = getenv("REFUSE");
    refused = number ? strtoul(number, NULL, 10) : 0;
    growths = 0;
}

__attribute__((destructor)) static void end(void) {
    if (!refused) fprintf(stderr, "%lu growths\n", growths);
}

static int is_refused(void) {
    if (++growths != refused) return 0;
    errno = ENOMEM;
    return 1;
}

void *malloc(size_t bytes) {
    return is_refused() ? NULL : __libc_malloc(bytes);
}

void *calloc(size_t count, size_t bytes) {
    return is_refused() ? NULL : __libc_calloc(count, bytes);
}

void *realloc(void *kept, size_t bytes) {
    return is_refused() ? NULL : __libc_realloc(kept, bytes);
}

void *aligned_alloc(size_t align, size_t bytes) {
    return is_refused() ? NULL : __libc_memalign(align, bytes);
}

int posix_memalign(void **place, size_t align, size_t bytes) {
    void *made = is_refused() ? NULL : __libc_memalign(align, bytes);
    if (!made) return ENOMEM;
    *place = made;
    return 0;
}

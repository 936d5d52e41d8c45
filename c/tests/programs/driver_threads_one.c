/* A library with thread-local data: exported, hidden, aligned, with an address in it. */
#include "driver_threads.h"

static int other = 9;
static __thread long count __attribute__((aligned(64)));
static __thread char wide[3] __attribute__((aligned(8192)));
__thread struct record shared = { 5, "five", &other };
_Thread_local char name[16] = "library one";

int count_in_library(void) {
    count++;
    wide[1]++;
    return (int)count * 100 + of_program + (wide[1] == (char)count ? 0 : 50000);
}

long misaligned_in_library(void) { return (long)&count % 64 + (long)wide % 8192; }

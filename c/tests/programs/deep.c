/* A program that uses three megabytes of stack, and four of zeros. */
#include "start.h"

static char zeros[4 << 20];

static uint64_t deep(uint64_t depth) {
    volatile char room[1024];
    for (int i = 0; i < 1024; i += 64) room[i] = (char)depth;
    return depth ? deep(depth - 1) + (room[64] == (char)depth) : 0;
}

void begin(uint64_t *stack, uint64_t at_end) {
    (void)at_end;
    uint64_t sum = 0;
    for (uint64_t i = 0; i < sizeof zeros; i += 4096) sum += (uint64_t)zeros[i]++;
    say_number(deep(3000) + sum), say("\n");
    leave((long)stack[0]);
}

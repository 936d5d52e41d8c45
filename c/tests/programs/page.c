/* A program whose code and data lie in one page: it is linked with pages of 512 bytes. */
#include "start.h"

static volatile int count = 41;

void begin(uint64_t *stack, uint64_t at_end) {
    (void)stack, (void)at_end;
    count++;
    say((uint64_t)&count / 4096 == (uint64_t)begin / 4096 ? "one page\n" : "two pages\n");
    leave(count);
}

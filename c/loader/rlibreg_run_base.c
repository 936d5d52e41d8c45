/* Chooses the base of a program if the user didn't name one. */
#define _GNU_SOURCE
#include "rlibreg_run_kernel.h"
#include "rlibreg_run.h"

#include <sys/auxv.h>

#define USUAL_BASE ((uint64_t)1 << 40)
#define BIG_PAGE ((uint64_t)2 << 20)

/* Returns a number that differs from start to start. It combines both halves of the kernel's random
 * bytes. A C library uses one half for its own secrets, and a process that learns the base must not
 * learn anything about that half. */
static uint64_t random_bits(void) {
    uint64_t halves[2] = { 0 };
    const void *bytes = (const void *)getauxval(AT_RANDOM);
    if (bytes) memcpy(halves, bytes, sizeof halves);
    return halves[0] ^ halves[1];
}

/* Returns number `place` of the sequence `sequence`, which looks random (SplitMix64). */
static uint64_t number_of(uint64_t sequence, uint64_t place) {
    uint64_t it = sequence + (place + 1) * 0x9e3779b97f4a7c15;
    it = (it ^ it >> 30) * 0xbf58476d1ce4e5b9;
    it = (it ^ it >> 27) * 0x94d049bb133111eb;
    return it ^ it >> 31;
}

/* Each try lies in the lower half of the range of the previous try, so finally an image of any size
 * fits. If no multiple of the unit lies below the end of the range, the returned base is one that
 * the bind refuses. */
uint64_t base_of_try(const struct program *it, int number) {
    uint64_t unit = unit_of(it) > BIG_PAGE ? unit_of(it) : BIG_PAGE;
    if (unit > END_OF_BASES / 2) return USUAL_BASE;
    if (has_fixed_bases() && !number) return unit > USUAL_BASE ? unit : USUAL_BASE;
    uint64_t places = (END_OF_BASES >> number) / unit;
    if (places < 2) return unit;
    uint64_t sequence = has_fixed_bases() ? 0 : random_bits();
    return unit * (1 + number_of(sequence, (uint64_t)number) % (places - 1));
}

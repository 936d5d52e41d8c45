/* Finds out which process this is.
 *
 * The process number isn't enough: process 1 of a container that makes another process namespace
 * and forks has a child that is process 1, too. So each process also draws a random number when it
 * first needs one, and a child has to draw another. Three things make sure of that, because each of
 * them misses some children:
 *
 * - The kernel fills the page of the drawn number with zeros in a child (MADV_WIPEONFORK). It does
 *   so for clone(2) as well, which runs no handlers. But Linux before 4.14 doesn't do so, and an
 *   emulator may accept the request without doing so.
 * - The handler of fork calls rlibreg_process_end in the child (rlibreg_disk_file.c).
 * - The process number is compared, too.
 *
 * Only a child that shares its parent's memory (vfork, CLONE_VM) and its process number is
 * missed. */
#define _GNU_SOURCE
#include "rlibreg_process.h"

#include <stdalign.h>
#include <stdatomic.h>
#include <sys/mman.h>
#include <unistd.h>

#define PAGE 4096

/* The number that this process drew, or 0. The number has a page of its own, which has no bytes in
 * the program's file: only such a page is filled with zeros. */
static union {
    alignas(PAGE) _Atomic uint64_t number;
    uint8_t page[PAGE];
} drawn;

/* Draws a number that differs from those of all processes from which this one descends. If two
 * threads draw at the same time, both return the first thread's number. */
static uint64_t draw(void) {
    static _Atomic uint64_t last;
    uint64_t number = atomic_load(&drawn.number);
    if (number) return number;
    uint64_t next = atomic_fetch_add(&last, 1) + 1;
    return atomic_compare_exchange_strong(&drawn.number, &number, next) ? next : number;
}

void rlibreg_process_begin(void) {
    madvise(&drawn, sizeof drawn, MADV_WIPEONFORK); /* without this page, the other two measures
                                                     * still detect most children */
}

void rlibreg_process_end(void) {
    atomic_store(&drawn.number, 0);
}

struct process rlibreg_this_process(void) {
    return (struct process){ getpid(), draw() };
}

int rlibreg_is_this_process(const struct process *it) {
    return it->number == getpid() && it->drawn == draw();
}

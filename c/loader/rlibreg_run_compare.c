/* Compares the sources of a kept image with the program and the disk as they are now. */
#define _GNU_SOURCE
#include "rlibreg_run_kernel.h"
#include "rlibreg_run_kept.h"

#include <errno.h>
#include <sys/mman.h>

/* The maximum number of bytes that one call reads. */
enum { AT_ONCE = 16 << 10 };

#ifndef MADV_POPULATE_READ /* Linux 5.14 */
#define MADV_POPULATE_READ 22
#endif

/* A read that meets unreadable bytes ends before them, and the next read returns the error. */
int read_exactly(int fd, void *to, uint64_t length, uint64_t at) {
    int64_t count = 1;
    for (uint64_t done = 0; done < length && count > 0; done += (uint64_t)count) {
        count = kernel_read(fd, (uint8_t *)to + done, length - done, at + done);
        if (count < 0) return (int)count;
    }
    return count ? 0 : IS_OTHER;
}

/* ---- The image's pages */

/* Reads all pages of a map of the kept file, which begins at offset `from` of the file. In this
 * way, an error is found here, and doesn't end the process by a signal later. A kernel before 5.14
 * doesn't have this call; then the bytes are read from the file again. */
static int read_map(uint64_t map, uint64_t length, int kept, uint64_t from) {
    uint8_t bytes[AT_ONCE];
    int error = kernel_advise(map, length, MADV_POPULATE_READ);
    if (error != -EINVAL) return error;
    for (uint64_t step; length; length -= step, from += step) {
        step = length < AT_ONCE ? length : AT_ONCE;
        int other = read_exactly(kept, bytes, step, from);
        if (other) return other;
    }
    return 0;
}

/* Reads the pages of the image with which stretches are compared. */
static int read_pages(const struct kept_file *it, int kept) {
    const struct counts *counts = &it->head->counts;
    const struct stretch *one = it->stretches, *end = one + counts->of_program + counts->of_disk;
    int other = 0;
    for (; one < end && !other; one++) {
        if (!one->address) continue;
        const struct piece *piece = piece_with(it->pieces, counts->pieces, one->address);
        uint64_t from = piece->from + (one->address - piece->address);
        other = read_map(one->address, one->length, kept, from);
    }
    return other;
}

/* ---- The sources of the image */

/* Bytes of an open file that one call read. A program or a disk is read, not mapped, because other
 * processes may shorten it. The system copies faster to bytes that begin with a line of the
 * processor's cache. */
enum { CACHE_LINE = 64 };
struct window {
    int fd;
    uint64_t from, to; /* offsets in the file */
    _Alignas(CACHE_LINE) uint8_t bytes[AT_ONCE];
};

/* Moves a window to offset `at`, unless the window already has that byte. Reads nothing at or after
 * offset `end`. A window that isn't the last of a row ends where a page of the file ends, so that
 * no page is read in two parts. */
static int move_window(struct window *it, uint64_t at, uint64_t end) {
    if (it->from <= at && at < it->to) return 0;
    uint64_t most = at / PAGE * PAGE + AT_ONCE;
    it->from = at;
    it->to = end < most ? end : most;
    return read_exactly(it->fd, it->bytes, it->to - at, at);
}

/* A comparison of a program or a disk with a kept file. */
struct comparison {
    struct window source, others;
    uint64_t end_of_row; /* offset at which a row of stretches ends in the source */
    uint64_t end_of_others;
};

static void begin_comparison(struct comparison *it, int source, int kept,
                             const struct counts *counts) {
    it->source.fd = source;
    it->others.fd = kept;
    it->source.from = it->source.to = it->others.from = it->others.to = it->end_of_row = 0;
    it->end_of_others = place_of_pages(counts);
}

/* Compares the front of a stretch, as far as the windows have its bytes, and removes that front
 * from the stretch. */
static int compare_front(struct comparison *it, struct stretch *one) {
    uint64_t step = one->length;
    const uint8_t *kept = (const void *)one->address;
    if (move_window(&it->source, one->at, it->end_of_row)) return IS_OTHER;
    if (it->source.to - one->at < step) step = it->source.to - one->at;
    if (!kept) {
        int other = move_window(&it->others, one->from, it->end_of_others);
        if (other) return other;
        if (it->others.to - one->from < step) step = it->others.to - one->from;
        kept = it->others.bytes + (one->from - it->others.from);
    }
    if (memcmp(it->source.bytes + (one->at - it->source.from), kept, step)) return IS_OTHER;
    one->at += step;
    one->length -= step;
    *(one->address ? &one->address : &one->from) += step;
    return 0;
}

/* Returns the offset at which a row of stretches ends. In a row, each stretch begins where the
 * previous one ends. */
static uint64_t end_of_row(const struct stretch *it, const struct stretch *end) {
    uint64_t at = it->at;
    for (; it < end && it->at == at; it++) at += it->length;
    return at;
}

/* Compares `count` stretches, which are in the order of their offsets in the source. */
static int compare_stretches(struct comparison *it, const struct stretch *one, uint64_t count) {
    int other = 0;
    for (const struct stretch *end = one + count; one < end && !other; one++) {
        struct stretch rest = *one;
        if (one->at >= it->end_of_row) it->end_of_row = end_of_row(one, end);
        while (rest.length && !other) other = compare_front(it, &rest);
    }
    return other;
}

/* Compares a program with a kept file. */
static int compare_program(const struct program *program, int kept, const struct kept_file *it) {
    struct comparison comparison;
    begin_comparison(&comparison, program->fd, kept, &it->head->counts);
    return compare_stretches(&comparison, it->stretches, it->head->counts.of_program);
}

/* Compares the sources of an image with a disk. Takes no lock: as long as the disk has the same
 * roots, no change writes to the sectors that they list. For this reason the roots are read before
 * the comparison, for the key, and after it. */
static int compare_disk(int disk, int kept, const struct kept_file *it) {
    const struct counts *counts = &it->head->counts;
    struct comparison comparison;
    uint8_t roots[ROOTS];
    if (!is_compared(&it->head->key.disk)) return 0;
    begin_comparison(&comparison, disk, kept, counts);
    int other = compare_stretches(&comparison, it->stretches + counts->of_program, counts->of_disk);
    if (other) return other;
    return read_exactly(disk, roots, ROOTS, 0) || memcmp(roots, it->head->key.roots, ROOTS)
               ? IS_OTHER
               : 0;
}

int compare_image(const struct program *program, int disk, int kept, const struct kept_file *it) {
    int other = read_pages(it, kept);
    if (!other) other = compare_program(program, kept, it);
    return other ? other : compare_disk(disk, kept, it);
}

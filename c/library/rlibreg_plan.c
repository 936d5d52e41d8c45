/* Carries a plan out on the file, or on a copy of its bytes. A plan is the writes and syncs of a
 * change (rlibreg.h). */
#define _GNU_SOURCE
#include "rlibreg_registry.h"

#include <errno.h>
#include <string.h>
#include <sys/mman.h>
#include <unistd.h>

static uint32_t number_at(const uint8_t *plan) {
    return plan[0] | (uint32_t)plan[1] << 8 | (uint32_t)plan[2] << 16 | (uint32_t)plan[3] << 24;
}

static int write_all(int fd, const uint8_t *from, size_t length, off_t at) {
    while (length) {
        ssize_t wrote = pwrite(fd, from, length, at);
        if (wrote < 0 && errno == EINTR) continue;
        if (wrote < 0) return -1;
        if (!wrote) {
            errno = EIO;
            return -1;
        }
        from += wrote;
        length -= (size_t)wrote;
        at += wrote;
    }
    return 0;
}

/* Writes the sector of the step at the front of a plan. The same write includes the sectors of the
 * following steps, as long as each sector follows the previous one. To do so, moves the bytes of
 * the sectors together. Returns the number of bytes that these steps take in the plan, or 0 if the
 * write fails. */
static size_t write_run(int fd, uint8_t *plan, size_t length) {
    uint32_t first = number_at(plan), next = first + 1;
    size_t at = STEP_NUMBER + SECTOR, bytes = SECTOR;
    for (; at < length && number_at(plan + at) == next && next != RLIBREG_SYNC; next++) {
        memmove(plan + STEP_NUMBER + bytes, plan + at + STEP_NUMBER, SECTOR);
        at += STEP_NUMBER + SECTOR;
        bytes += SECTOR;
    }
    return write_all(fd, plan + STEP_NUMBER, bytes, (off_t)first * SECTOR) ? 0 : at;
}

/* Checks the file's length before each step, because a write past the end of a shortened file would
 * hide that it was shortened. */
int rlibreg_carry_out(const struct disk_file *file, uint8_t *plan, size_t length) {
    for (size_t at = 0; at < length;) {
        size_t done = STEP_NUMBER;
        if (!rlibreg_has_length(file)) return -1;
        if (number_at(plan + at) == RLIBREG_SYNC) {
            if (fsync(file->fd)) return -1;
        } else {
            done = write_run(file->fd, plan + at, length - at);
            if (!done) return -1;
        }
        at += done;
    }
    return 0;
}

/* The map is private: the system copies the pages that are written, and writes nothing to the
 * file. */
uint8_t *rlibreg_copy_after(const struct disk_file *file, const uint8_t *plan, size_t length) {
    const int kind = MAP_PRIVATE | MAP_NORESERVE;
    uint8_t *copy = mmap(NULL, file->length, PROT_READ | PROT_WRITE, kind, file->fd, 0);
    if (copy == MAP_FAILED) return NULL;
    for (size_t at = 0; at < length; at += STEP_NUMBER) {
        uint32_t number = number_at(plan + at);
        if (number == RLIBREG_SYNC) continue;
        memcpy(copy + (size_t)number * SECTOR, plan + at + STEP_NUMBER, SECTOR);
        at += SECTOR;
    }
    return copy;
}

/* Compares the roots that the system shows, which are the first 1,024 bytes of a disk, with those
 * on the medium. The calls over a file and the programs call this when they open a disk.
 *
 * Linux treats a page that it couldn't write back as written, and shows it. For this reason the
 * roots are read twice, after the sync of an opening and before any map: from the system's memory
 * and past it (O_DIRECT). If the two are equal, nothing else is done. As long as the lock is held,
 * no process that requests the lock can make them differ, even if the system drops pages from its
 * memory and reads them again. */
#define _GNU_SOURCE
#include "rlibreg_disk_file.h"

#include <errno.h>
#include <fcntl.h>
#include <linux/loop.h>
#include <stdalign.h>
#include <string.h>
#include <sys/ioctl.h>
#include <sys/mman.h>
#include <sys/syscall.h>
#include <time.h>
#include <unistd.h>

#ifndef STATX_TYPE /* musl before 1.2.5 has neither the call nor its structure */
#include <linux/stat.h>
#endif

/* The system has a file in memory in pieces of one page to 2 MiB. It drops a piece only if the
 * whole piece lies in the range to drop. A read past the system's memory reads a block of 4,096
 * bytes, because there are devices with sectors of this size. */
enum { SECTOR = 512, ROOTS = 2 * SECTOR, BLOCK = 4096, GREATEST_PIECE = 2 << 20 };

/* The maximum number of attempts to make the system drop the roots, if other processes use them.
 * There are five milliseconds between two attempts. */
enum { FORGET_TRIES = 40 };

enum comparison {
    EQUAL,
    DIFFERENT,
    UNKNOWN, /* reads past the system's memory fail, or also return bytes of some memory */
    FAILED   /* errno has the reason */
};

struct front {
    int fd, flags;
    int is_blind; /* whether reads past the system's memory succeed, but still return bytes of some
                   * memory */
    alignas(BLOCK) uint8_t kept[BLOCK];   /* first block, as the system shows it */
    alignas(BLOCK) uint8_t medium[BLOCK]; /* first block, as it is read past the system's memory */
};

/* Returns whether `fd` is a loop device that reads and writes its file through the system's
 * memory. */
static int is_loop_over_memory(int fd) {
    struct loop_info64 info;
    return !ioctl(fd, LOOP_GET_STATUS64, &info) && !(info.lo_flags & LO_FLAGS_DIRECT_IO);
}

static int is_encoded(int fd) {
    struct statx found;
    const uint64_t encoded = STATX_ATTR_ENCRYPTED | STATX_ATTR_COMPRESSED;
    return !syscall(SYS_statx, fd, "", AT_EMPTY_PATH | AT_STATX_DONT_SYNC, 0, &found) &&
           found.stx_attributes & encoded;
}

/* Reads the first block past the system's memory, through the file's own descriptor. The read needs
 * neither /proc nor the file's path, which may name another file now. Writes to the buffer first,
 * because btrfs fills pages that were never written from its memory. Returns EQUAL if the roots
 * were read. */
static enum comparison read_medium(struct front *it) {
    memset(it->medium, 0, BLOCK);
    if (fcntl(it->fd, F_SETFL, it->flags | O_DIRECT)) return UNKNOWN;
    ssize_t length = pread(it->fd, it->medium, BLOCK, 0);
    int why = length < 0 ? errno : EIO;
    if (fcntl(it->fd, F_SETFL, it->flags)) return FAILED;
    if (length >= ROOTS) return EQUAL;
    errno = why;
    return why == EINVAL || why == EOPNOTSUPP ? UNKNOWN : FAILED;
}

static enum comparison compare(struct front *it) {
    ssize_t length = pread(it->fd, it->kept, BLOCK, 0);
    if (length < 0) return FAILED;
    if (length < BLOCK) return EQUAL; /* no registry is so short */
    enum comparison is = read_medium(it);
    if (is == EQUAL && memcmp(it->kept, it->medium, ROOTS)) return DIFFERENT;
    return is == EQUAL && it->is_blind ? UNKNOWN : is;
}

/* Returns whether the system may still have the first page of a map in memory. If the user neither
 * owns the file nor may write it, mincore always reports the page as being in memory. */
static int may_be_kept(void *map) {
    unsigned char kept;
    return map == MAP_FAILED || mincore(map, 1, &kept) || kept & 1;
}

/* Makes the system drop a growing part of the file's front, until it has dropped the first page.
 * The map allows no access, so it holds no page, even in a process that locks its memory. */
static void forget(int fd) {
    void *map = mmap(NULL, 1, PROT_NONE, MAP_SHARED, fd, 0);
    for (off_t size = BLOCK; size <= GREATEST_PIECE; size *= 2) {
        posix_fadvise(fd, 0, size, POSIX_FADV_DONTNEED);
        if (!may_be_kept(map)) break;
    }
    if (map != MAP_FAILED) munmap(map, 1);
}

/* Makes the system drop roots that the medium doesn't have, until the system shows the roots of the
 * medium. Returns the result of the last comparison. */
static enum comparison forget_and_compare(struct front *it) {
    const struct timespec moment = { .tv_nsec = 5 * 1000 * 1000 };
    enum comparison is = DIFFERENT;
    for (int tries = 0; is == DIFFERENT && tries < FORGET_TRIES; tries++) {
        if (tries) nanosleep(&moment, NULL);
        forget(it->fd);
        is = compare(it);
    }
    return is;
}

static int is_root(const uint8_t *sector) {
    return !memcmp(sector, "RLIBREG1", 8) || !memcmp(sector, "RLIBREG2", 8);
}

/* Writes the roots that the system shows to the medium, and compares again. Everything that these
 * roots name was synced successfully before they were written. A device that can only be read
 * (EPERM) needs no such write, because nothing changes it without the system's knowledge. */
static enum comparison take_kept(struct front *it, enum comparison is, int (*sync)(int)) {
    if (!is_root(it->kept) && !is_root(it->kept + SECTOR)) return is;
    ssize_t length = pwrite(it->fd, it->kept, ROOTS, 0);
    if (length < 0 && errno == EPERM && is == UNKNOWN) return is;
    if (length >= 0 && length < ROOTS) errno = EIO;
    return length < ROOTS || sync(it->fd) ? FAILED : compare(it);
}

static int may_write(const struct front *it) {
    return (it->flags & O_ACCMODE) == O_RDWR;
}

static enum comparison meet(struct front *it, int (*sync)(int)) {
    enum comparison is = compare(it);
    if (is == DIFFERENT) is = forget_and_compare(it);
    if (is == UNKNOWN) {
        forget(it->fd);
        is = compare(it);
    }
    int agree = is == EQUAL || is == FAILED || !may_write(it);
    return agree ? is : take_kept(it, is, sync);
}

int rlibreg_meet_front(int fd, int (*sync)(int)) {
    struct front it = { .fd = fd, .flags = fcntl(fd, F_GETFL) };
    struct stat found;
    if (it.flags < 0 || fstat(fd, &found)) return -1;
    if (!S_ISREG(found.st_mode) && !S_ISBLK(found.st_mode)) return 0; /* a folder has no roots */
    it.is_blind = S_ISBLK(found.st_mode) ? is_loop_over_memory(fd) : is_encoded(fd);
    enum comparison is = meet(&it, sync);
    if (is == DIFFERENT) errno = EIO;
    return is == EQUAL || is == UNKNOWN ? 0 : -1;
}

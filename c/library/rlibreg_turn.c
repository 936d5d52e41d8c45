/* Takes turns at the lock of a disk. */
#define _GNU_SOURCE
#include "rlibreg_turn.h"

#include <errno.h>
#include <fcntl.h>
#include <sys/file.h>
#include <sys/vfs.h>
#include <time.h>

enum { MILLISECOND = 1000 * 1000, PAUSE = 2 * MILLISECOND, SECOND = 1000 * MILLISECOND };

/* ---- Moments */

static int64_t now(void) {
    struct timespec it;
    clock_gettime(CLOCK_MONOTONIC, &it);
    return (int64_t)it.tv_sec * SECOND + it.tv_nsec;
}

int64_t rlibreg_moment_in(int64_t milliseconds) {
    return now() + milliseconds * MILLISECOND;
}

/* Sleeps for a moment, but not past `until`. A signal may end the sleep, so the caller reads the
 * clock. */
static void nap(int64_t until) {
    int64_t left = until - now();
    struct timespec it = { .tv_nsec = left < 0 ? 0 : left < PAUSE ? left : PAUSE };
    nanosleep(&it, NULL);
}

/* ---- Marks */

/* A process that waits for the exclusive lock has set the first mark, and a process that has the
 * lock has set the second. The marks lie past the end of any disk. */
enum mark { WAITS, CHANGES, MARKS };
#define FIRST_MARK ((off_t)1 << 62)

static int over_mark(int fd, int command, enum mark which, struct flock *it) {
    it->l_whence = SEEK_SET;
    it->l_start = FIRST_MARK + which;
    return fcntl(fd, command, it);
}

/* Sets a mark if no other open file has set it. With F_OFD_SETLKW, waits until no other open file
 * has it. Returns 0, or -1 with errno. Only a process that may write the file can set a mark. */
static int set(int fd, int command, enum mark which) {
    struct flock it = { .l_type = F_WRLCK, .l_len = 1 };
    return over_mark(fd, command, which, &it);
}

/* Removes `count` marks from `first` on, and leaves errno as it is. */
static void clear(int fd, enum mark first, int count) {
    int why = errno;
    struct flock it = { .l_type = F_UNLCK, .l_len = count };
    over_mark(fd, F_OFD_SETLK, first, &it);
    errno = why;
}

/* Returns whether another open file has set a mark. A process that may only read the file can lock
 * the mark's byte in the way of a reader, but this doesn't set the mark. */
static int is_set(int fd, enum mark which) {
    struct flock it = { .l_type = F_RDLCK, .l_len = 1 };
    return !over_mark(fd, F_OFD_GETLK, which, &it) && it.l_type == F_WRLCK;
}

/* Returns whether a file can be marked. Some file systems, such as NFS, SMB, 9p, AFS and Lustre,
 * implement a lock of flock as a lock of all bytes. On these file systems, the lock and the marks
 * would exclude each other. */
static int has_marks(int fd) {
    static const uint32_t without[] = { 0x6969,     0x517b,     0xff534d42, 0xfe534d42,
                                        0x01021997, 0x5346414f, 0x6b414653, 0x0bd00bd0 };
    struct statfs found;
    if (fstatfs(fd, &found)) return 0;
    for (size_t i = 0; i < sizeof without / sizeof *without; i++)
        if ((uint32_t)found.f_type == without[i]) return 0;
    return 1;
}

/* ---- The lock */

/* Returns whether a refused lock may become free later. */
static int may_be_had(void) {
    return errno == EWOULDBLOCK || errno == EINTR;
}

/* Retries to get a lock until the moment `until`, even if signals come. With RLIBREG_NO_END, lets
 * the system wait for it. Returns 0, or -1 with errno. */
static int try_until(int fd, int kind, int64_t until) {
    if (until == RLIBREG_NO_END) return rlibreg_flock(fd, kind);
    while (rlibreg_flock(fd, kind | LOCK_NB)) {
        if (!may_be_had() || now() >= until) return -1;
        nap(until);
    }
    return 0;
}

/* Gives way, until the moment `until`, to a process that waits for the file's readers to end.
 * Doesn't wait for a process that already has the exclusive lock. Returns whether the caller gave
 * way. */
static int give_way(int fd, int64_t until) {
    int gave_way = 0;
    for (; is_set(fd, WAITS) && !is_set(fd, CHANGES) && now() < until; gave_way = 1) nap(until);
    return gave_way;
}

int rlibreg_lock_shared(int fd, int64_t until) {
    int64_t end = rlibreg_moment_in(RLIBREG_A_TURN);
    if (until && until < end) end = until;
    if (has_marks(fd) && give_way(fd, end) && !until) until = end; /* a reader that gave way
                                                                    * isn't refused immediately */
    return try_until(fd, LOCK_SH, until);
}

/* Waits for the exclusive lock. If the file can be marked, waits first for the processes that
 * already wait for the lock, and then for those that have it. Returns 0, or -1 with errno. */
static int queue(int fd) {
    if (set(fd, F_OFD_SETLK, WAITS) && errno == EAGAIN && is_set(fd, WAITS) &&
        set(fd, F_OFD_SETLKW, WAITS) && errno == EINTR)
        return -1;
    return rlibreg_flock(fd, LOCK_EX);
}

/* Retries to get the exclusive lock until the moment `until`, and sets the mark as soon as no other
 * open file has it. Returns 0, or -1 with errno. */
static int try_marked(int fd, int64_t until) {
    while (now() < until) {
        set(fd, F_OFD_SETLK, WAITS);
        nap(until);
        if (!rlibreg_flock(fd, LOCK_EX | LOCK_NB)) return 0;
        if (!may_be_had()) break;
    }
    return -1;
}

int rlibreg_lock_alone(int fd, int64_t until) {
    if (!has_marks(fd)) return try_until(fd, LOCK_EX, until);
    int failed = rlibreg_flock(fd, LOCK_EX | LOCK_NB);
    int waits = failed && may_be_had() && until;
    if (waits) failed = until == RLIBREG_NO_END ? queue(fd) : try_marked(fd, until);
    if (!failed) set(fd, F_OFD_SETLK, CHANGES);
    if (waits) clear(fd, WAITS, 1);
    return failed;
}

void rlibreg_unlock(int fd) {
    if (has_marks(fd)) clear(fd, WAITS, MARKS);
    rlibreg_flock(fd, LOCK_UN);
}

/* ---- */

int rlibreg_write_out(int fd) {
    const unsigned all = SYNC_FILE_RANGE_WAIT_BEFORE | SYNC_FILE_RANGE_WRITE |
                         SYNC_FILE_RANGE_WAIT_AFTER;
    if (!sync_file_range(fd, 0, 0, all)) return 0;
    return errno == EINVAL || errno == ESPIPE || errno == ENOSYS || errno == EPERM ? 0 : -1;
}

/* Locks a disk for the programs. build.sh links this in place of the flock that their language
 * calls. rlibreg_disk_file.c does the same for the calls over a file. */
#define _GNU_SOURCE
#include "rlibreg_program_lock.h"
#include "rlibreg_turn.h"

#include <errno.h>
#include <fcntl.h>
#include <sys/file.h>
#include <sys/stat.h>

int __real_flock(int fd, int kind);
int __wrap_flock(int fd, int kind);

int rlibreg_flock(int fd, int kind) {
    return __real_flock(fd, kind);
}

/* The errno of a failed write before the lock (rlibreg_write_out), or 0. The next sync reports
 * it. */
static int early_fault;

int rlibreg_take_early_fault(void) {
    int why = early_fault;
    early_fault = 0;
    return why;
}

/* The moment at which all tries for the lock end, or 0 if the program wasn't asked to wait. */
static int64_t wait_end;

void rlibreg_wait_for_lock(int64_t milliseconds) {
    wait_end = milliseconds == RLIBREG_FOREVER ? RLIBREG_NO_END : rlibreg_moment_in(milliseconds);
}

/* Locks a file exclusively. Returns 0, or -1 with errno. A program opens its disk once, so all its
 * attempts to lock it end together after two seconds, unless it was asked to wait. The language
 * itself repeats a call for the lock of a device, and EBUSY ends these repetitions. */
static int lock_alone(int fd) {
    static int64_t until;
    struct stat found;
    if (!until) until = wait_end ? wait_end : rlibreg_moment_in(RLIBREG_A_TURN);
    if (!rlibreg_lock_alone(fd, until)) return 0;
    if (errno == EWOULDBLOCK && !fstat(fd, &found) && S_ISBLK(found.st_mode)) errno = EBUSY;
    return -1;
}

/* Replaces flock. If a file that is open only for reading is to be locked exclusively, a `format`
 * may have left the file. In this case the call doesn't wait. */
int __wrap_flock(int fd, int kind) {
    if (kind == (LOCK_SH | LOCK_NB)) {
        if (rlibreg_write_out(fd)) early_fault = errno;
        return rlibreg_lock_shared(fd, wait_end);
    }
    if (kind == (LOCK_EX | LOCK_NB) && (fcntl(fd, F_GETFL) & O_ACCMODE) == O_RDWR)
        return lock_alone(fd);
    return __real_flock(fd, kind);
}

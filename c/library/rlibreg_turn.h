/* The lock of a disk, and the turns in which processes get it: for the calls over a file, and for
 * the programs. Nothing here is for users.
 *
 * The lock is that of flock(2), which has no turns. Readers share it. As long as new readers come
 * before the others have ended, a process that waits for the exclusive lock would never get it. So
 * this process marks the file, and a process that wants to read gives way to the mark, for two
 * seconds at most. A mark is a lock of fcntl(2) that belongs to the open file, on a byte far past
 * the disk's end. It disappears when its process ends. */
#ifndef RLIBREG_TURN_H
#define RLIBREG_TURN_H

#include <stdint.h>

/* Moments are nanoseconds of CLOCK_MONOTONIC. */
#define RLIBREG_NO_END INT64_MAX

/* Number of milliseconds for which a reader gives way. A change that doesn't wait retries for the
 * same time, if others may have the lock for a moment. */
enum { RLIBREG_A_TURN = 2000 };

/* Returns the moment that is `milliseconds` milliseconds from now. */
int64_t rlibreg_moment_in(int64_t milliseconds);

/* rlibreg_lock_shared locks a file together with other readers, and rlibreg_lock_alone locks it
 * exclusively. They return 0, or -1 with errno. If the lock isn't free, they retry until the moment
 * `until`, or try only once if it is 0. With RLIBREG_NO_END, the system waits. The errno is
 * EWOULDBLOCK if others have the lock, and EINTR if a signal came while the system waited.
 * rlibreg_unlock removes the marks that the open file has set, and releases its lock. */
int rlibreg_lock_shared(int fd, int64_t until);
int rlibreg_lock_alone(int fd, int64_t until);
void rlibreg_unlock(int fd);

/* Asks the system to write the dirty pages of a file, and waits until they are written. A reader
 * calls this before it locks the file, so that its sync under the lock takes only a moment. Returns
 * 0, or -1 with errno if a write failed. The system reports this only once, so the caller must
 * treat it as a failed sync. */
int rlibreg_write_out(int fd);

/* Returns the errno of the program's rlibreg_write_out if that call failed, but only once, and
 * otherwise 0 (rlibreg_program_lock.c). */
int rlibreg_take_early_fault(void);

/* Calls flock(2). The library and the programs have their own definitions. */
int rlibreg_flock(int fd, int kind);

#endif

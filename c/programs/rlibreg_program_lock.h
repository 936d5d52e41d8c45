/* The lock of a program's disk. */
#ifndef RLIBREG_PROGRAM_LOCK_H
#define RLIBREG_PROGRAM_LOCK_H

#include <stdint.h>

/* For rlibreg_wait_for_lock: the program waits without an end. */
#define RLIBREG_FOREVER INT64_MAX

/* Makes each later try for the lock of a disk end `milliseconds` milliseconds from now. Without this
 * call, a reader tries once, and a change tries for two seconds. */
void rlibreg_wait_for_lock(int64_t milliseconds);

#endif

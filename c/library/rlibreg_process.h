/* Finds out whether the process that opened a disk is this process. Nothing here is for users. */
#ifndef RLIBREG_PROCESS_H
#define RLIBREG_PROCESS_H

#include <stdint.h>
#include <sys/types.h>

/* A process. If the number is 0, it is no process. */
struct process {
    pid_t number;
    uint64_t drawn; /* differs from the number of each process from which this one descends */
};

/* Asks the kernel to clear the drawn number in children. Call this before the functions below. */
void rlibreg_process_begin(void);

/* Records in a child of fork that the child isn't the process that its parent is. */
void rlibreg_process_end(void);

struct process rlibreg_this_process(void);
int rlibreg_is_this_process(const struct process *it);

#endif

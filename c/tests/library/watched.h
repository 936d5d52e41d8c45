/* Watches the system calls that open, lock and make a disk. A test that watches them is linked with
 * --wrap for each of these calls, by the list in run.sh. */
#ifndef WATCHED_H
#define WATCHED_H

#include "rlibreg.h"

#include <errno.h>
#include <stdio.h>
#include <stdint.h>
#include <stdlib.h>
#include <string.h>
#include <sys/types.h>

#define WANT(what)                                                                                 \
    do {                                                                                           \
        if (!(what)) {                                                                             \
            fprintf(stderr, "%s: line %d: not so: %s\n", __FILE__, __LINE__, #what);               \
            fprintf(stderr, "the calls were: %s\n", watched.log);                                  \
            exit(1);                                                                               \
        }                                                                                          \
    } while (0)

struct watched {
    int is_on;
    char log[8192];           /* word of each call, except those that only look, followed by a
                               * blank */
    long calls;               /* number of calls, including those that only look */
    long first, second;       /* numbers of two calls that fail, counted from 0; -1 for none */
    int why;                  /* errno of these failures */
    char failed[32];          /* word of the last call that failed */
    long end;                 /* number of the call before which the process ends; -1 for none */
    int end_status;           /* exit status of the process then */
    const char *refused;      /* word of calls that fail */
    const char *refused_too;  /* another word of calls that fail */
    int because, because_too; /* errno with which the calls of each word fail */
    long times;               /* number of calls of the first word that fail */
    dev_t device;             /* block device that a regular file is reported to be; or 0 */
    int least;                /* least descriptor for which a device is reported; at first 3, so not
                               * for streams */
    int differ;               /* roots that are reported to differ on the medium: 1, 2, or 3 for
                               * both */
    int keeps;                /* number of requests to drop the front at which the system keeps
                               * it */
    int is_stuck;             /* whether writes of the shown roots don't reach the medium either */
    int is_gone;              /* whether the system has dropped the front */
    int is_past;              /* whether reads go past the system's memory */
    off_t forgotten;          /* number of bytes of the front in the last request to drop them */
    ssize_t past_length;      /* maximum number of bytes that such a read returns; 0 for no limit */
    int is_encrypted;         /* whether a file is reported to be encrypted */
    int loop;                 /* a device is reported to be a loop device: 1 through memory, 2 past
                               * it */
    size_t wrote;             /* number of bytes of the last write */
    long system;              /* type of the file system that is reported; or 0 */
    int is_read_only;         /* whether it is reported to be mounted read-only */
    int64_t slept;            /* number of nanoseconds of all requested sleeps */
    int is_short;             /* whether each write writes fewer bytes than requested */
    int is_dirty;             /* whether a file was written or shortened since the last sync */
    int wipes_nothing;        /* whether the kernel refuses MADV_WIPEONFORK */
    int watches_no_forks;     /* whether the system refuses memory for a handler of forks */

    /* The function that is called before each watched call, or null. */
    void (*before)(const char *word);
};
extern struct watched watched;

/* watch begins to watch the calls, of which none fails at first. unwatch ends this. */
void watch(void);
void unwatch(void);

/* Returns the place in the log of a call of this word, or null if none was made. */
const char *made(const char *word);

/* is_held_alone returns whether others can't share the lock of a file, and is_held whether they
 * can't take it exclusively. */
int is_held_alone(const char *path);
int is_held(const char *path);

/* Returns the names in the folder where the test runs, in order, each followed by a blank. */
const char *names_here(void);

#endif

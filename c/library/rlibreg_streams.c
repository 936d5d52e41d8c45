/* Prevents a disk from becoming a standard stream of the process. The calls over a file and the
 * loader call this. */
#define _GNU_SOURCE
#include "rlibreg_disk_file.h"

#include <errno.h>
#include <fcntl.h>
#include <unistd.h>

/* The standard streams have the numbers below this one. */
enum { STREAMS = 3 };

/* Opens a file to which nothing can be written. Early in a system's start, the devices may not
 * exist yet. */
static int open_nothing(void) {
    int fd = open("/dev/null", O_RDONLY | O_NOCTTY);
    return fd < 0 ? open("/", O_RDONLY | O_DIRECTORY) : fd;
}

/* Opens each stream that isn't open. Returns 0, or -1 if the system doesn't report whether a stream
 * is open: a filter of system calls (seccomp) can refuse fcntl. */
static int fill_streams(void) {
    for (int number = 0; number < STREAMS; number++)
        while (fcntl(number, F_GETFD) < 0) {
            int fd = errno == EBADF ? open_nothing() : -1;
            if (fd < 0) return -1;
            if (fd >= STREAMS) close(fd); /* another thread has opened the stream */
        }
    return 0;
}

/* Moves a file to a descriptor above those of the standard streams. The file got the number of a
 * stream because another thread had closed that stream. Returns the new descriptor, or -1 with errno. */
static int move_up(int stream) {
    int fd = fcntl(stream, F_DUPFD_CLOEXEC, STREAMS), nothing = open_nothing();
    if (nothing < 0 || dup2(nothing, stream) < 0) close(stream);
    if (nothing >= STREAMS) close(nothing);
    return fd;
}

int rlibreg_open_apart(int folder, const char *path, int flags) {
    if (fill_streams()) return -1;
    int fd = openat(folder, path, flags, 0666);
    return 0 <= fd && fd < STREAMS ? move_up(fd) : fd;
}

int rlibreg_stream_of_file(const struct stat *file) {
    struct stat found;
    /* If the system doesn't report how a stream is open, it may be open for writing. */
    for (int number = STREAMS - 1; number >= 0; number--) {
        int how = fcntl(number, F_GETFL);
        if (how < 0 ? errno == EBADF : (how & O_ACCMODE) == O_RDONLY) continue;
        if (fstat(number, &found)) return number;
        errno = ETXTBSY;
        if (rlibreg_is_same_file(&found, file)) return number;
    }
    return -1;
}

int rlibreg_stream_of(const char *path) {
    struct stat found;
    fill_streams(); /* if this fails, output is lost */
    return stat(path, &found) ? -1 : rlibreg_stream_of_file(&found);
}

/* Opens, writes and syncs a disk for the programs. build.sh links this in place of the open,
 * pwrite and fsync that their language calls. rlibreg_disk_file.c does the same for the calls
 * over a file. */
#define _GNU_SOURCE
#include "rlibreg_disk_file.h"
#include "rlibreg_turn.h"

#include <errno.h>
#include <fcntl.h>
#include <stdarg.h>
#include <string.h>
#include <unistd.h>

int __real_open(const char *path, int flags, ...);
int __wrap_open(const char *path, int flags, ...);
ssize_t __real_pwrite(int fd, const void *bytes, size_t length, off_t at);
ssize_t __wrap_pwrite(int fd, const void *bytes, size_t length, off_t at);
int __real_fsync(int fd);
int __wrap_fsync(int fd);

enum { NUMBERS = 64, ROOTS = 1024 };

/* The sectors that were written since the last sync. The roots are the first two sectors. */
enum written { NOTHING, NO_ROOT, A_ROOT };

/* The disk that is open for changes, and the path by which it was opened. The program opens nothing
 * else for writing, and never changes its working directory. A disk that `format` makes isn't
 * recorded here, because it gets its name only after its last sync. */
static struct {
    int fd;
    struct stat file;
    enum written written;
    char path[PATH_MAX];
} changed = { .fd = -1 };

/* Records the disk and its path, if it was opened for changes. Returns 0, or -1 if the system
 * doesn't report which file it is. */
static int keep_path(int fd, const char *path, int flags) {
    if (fd == changed.fd) changed.fd = -1; /* the number now belongs to another file */
    if ((flags & O_ACCMODE) == O_RDONLY || flags & O_CREAT) return 0;
    if (fstat(fd, &changed.file)) return -1;
    changed.fd = fd;
    changed.written = NOTHING;
    strcpy(changed.path, path); /* the path fits, because the system opens no longer path */
    return 0;
}

int __wrap_open(const char *path, int flags, ...) {
    va_list more;
    va_start(more, flags);
    mode_t mode = flags & O_CREAT ? va_arg(more, mode_t) : 0;
    va_end(more);
    int fd = __real_open(path, flags, mode);
    if (fd < 0 || !keep_path(fd, path, flags)) return fd;
    int why = errno;
    close(fd);
    errno = why;
    return -1;
}

/* Checks, after the first successful sync of a file, that the medium has the roots that the system
 * shows. Returns 0, or -1 with errno. Checks a descriptor with a high number after each sync. The
 * program opens its disk once, so each number stands for one file. */
static int meet_front_once(int fd) {
    static char was_synced[NUMBERS];
    if (fd < NUMBERS && was_synced[fd]) return 0;
    if (rlibreg_meet_front(fd, __real_fsync)) return -1;
    if (fd < NUMBERS) was_synced[fd] = 1;
    return 0;
}

ssize_t __wrap_pwrite(int fd, const void *bytes, size_t length, off_t at) {
    if (fd == changed.fd && at < ROOTS)
        changed.written = A_ROOT;
    else if (fd == changed.fd && changed.written == NOTHING)
        changed.written = NO_ROOT;
    return __real_pwrite(fd, bytes, length, at);
}

/* Checks, after a sync of the disk that is open for changes, that its path still names it. If it
 * doesn't, the sync fails, because nobody would see the written sectors. Makes no check if no root
 * was written: other sectors become part of the registry only with a root, and the sync after that
 * root checks the path. */
static int sync_changed(void) {
    enum written written = changed.written;
    changed.written = NOTHING;
    if (meet_front_once(changed.fd)) return -1;
    if (written == NO_ROOT) return 0;
    return rlibreg_path_names(AT_FDCWD, changed.path, &changed.file) ? 0 : -1;
}

int __wrap_fsync(int fd) {
    struct stat found;
    int early_fault = rlibreg_take_early_fault();
    if (__real_fsync(fd)) return -1;
    if (early_fault) {
        errno = early_fault;
        return -1;
    }
    if (fd == changed.fd) return sync_changed();
    if (fstat(fd, &found)) return -1;
    return S_ISDIR(found.st_mode) ? rlibreg_names_last(fd) : meet_front_once(fd);
}

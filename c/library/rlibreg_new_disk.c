/* Makes the file of a disk that doesn't exist yet, with another name until the file is complete.
 * rlibreg_format calls this (rlibreg_format.c). */
#define _GNU_SOURCE
#include "rlibreg_disk_file.h"

#include <errno.h>
#include <fcntl.h>
#include <stdio.h>
#include <string.h>
#include <sys/file.h>
#include <sys/syscall.h>
#include <unistd.h>

#define ENDING ".rlibreg-new"

static const char *name_in(const char *path) {
    const char *slash = strrchr(path, '/');
    return slash ? slash + 1 : path;
}

/* Opens the folder that has the file of `path`. Returns its descriptor, or -1 with errno. */
static int open_folder(const char *path) {
    char folder[PATH_MAX];
    size_t length = (size_t)(name_in(path) - path);
    if (length >= sizeof folder) {
        errno = ENAMETOOLONG;
        return -1;
    }
    memcpy(folder, path, length);
    folder[length] = 0;
    return rlibreg_open_apart(AT_FDCWD, length ? folder : ".",
                              O_RDONLY | O_DIRECTORY | O_CLOEXEC);
}

static void close_quietly(int fd) {
    int why = errno;
    if (fd >= 0) close(fd);
    errno = why;
}

static int bring_names(int folder) {
    return fsync(folder) || rlibreg_names_last(folder) ? -1 : 0;
}

int rlibreg_sync_folder(const char *path) {
    int fd = open_folder(path), failed = fd < 0 || bring_names(fd);
    close_quietly(fd);
    return failed ? -1 : 0;
}

/* ---- The other name */

static int look_at(const struct new_disk *it, const char *name, struct stat *found) {
    return fstatat(it->folder, name, found, AT_SYMLINK_NOFOLLOW);
}

/* Returns whether the open file `fd` has the other name. */
static int is_other_of(const struct new_disk *it, int fd) {
    struct stat named, opened;
    return !look_at(it, it->other, &named) && !fstat(fd, &opened) && S_ISREG(named.st_mode) &&
           named.st_dev == opened.st_dev && named.st_ino == opened.st_ino;
}

/* Removes the other name if the file `fd` has it. Returns 0, or -1 with errno. */
static int take_other(const struct new_disk *it, int fd) {
    return is_other_of(it, fd) ? unlinkat(it->folder, it->other, 0) : 0;
}

static uint32_t lock_alone(int fd) {
    if (!flock(fd, LOCK_EX | LOCK_NB)) return RLIBREG_DONE;
    return errno == EWOULDBLOCK ? RLIBREG_LOCKED : RLIBREG_SYSTEM;
}

/* Removes the other name if a process that has ended left it. With RLIBREG_WAIT, waits until the
 * moment `until` for a process that is making the disk. Returns a status. Doesn't write the file,
 * because it may be a finished registry, which also has its own name. */
static uint32_t take_leftover(const struct new_disk *it, unsigned flags, int64_t until) {
    struct disk_file left = NO_DISK_FILE;
    struct stat found;
    if (look_at(it, it->other, &found)) return errno == ENOENT ? RLIBREG_DONE : RLIBREG_SYSTEM;
    if (!S_ISREG(found.st_mode)) {
        errno = EINVAL;
        return RLIBREG_SYSTEM;
    }
    left.until = until;
    left.fd = rlibreg_open_apart(it->folder, it->other,
                                 O_RDONLY | O_NOFOLLOW | O_NONBLOCK | O_CLOEXEC);
    if (left.fd < 0) return errno == ENOENT ? RLIBREG_DONE : RLIBREG_SYSTEM;
    uint32_t status = RLIBREG_SYSTEM;
    if (!fstat(left.fd, &found)) status = rlibreg_disk_file_lock(&left, &found, flags);
    if (!status && take_other(it, left.fd)) status = RLIBREG_SYSTEM;
    rlibreg_disk_file_close(&left);
    return status;
}

/* Locks a file that was just made. Closes the file if it can't be locked, or if another process
 * took it for a leftover file and locked it. Returns a status. */
static uint32_t lock_made(const struct new_disk *it, int *fd) {
    uint32_t status = lock_alone(*fd);
    if (!status && is_other_of(it, *fd)) return RLIBREG_DONE;
    if (status == RLIBREG_SYSTEM) {
        int why = errno;
        take_other(it, *fd); /* the file can't be locked, so no other process has its lock */
        errno = why;
    }
    close_quietly(*fd);
    *fd = -1;
    return status == RLIBREG_LOCKED ? RLIBREG_DONE : status;
}

/* Refuses a disk that another process has made in the meantime: RLIBREG_SYSTEM with EEXIST. */
static uint32_t refuse_made(const struct new_disk *it) {
    struct stat found;
    if (look_at(it, it->name, &found)) return RLIBREG_DONE;
    errno = EEXIST;
    return RLIBREG_SYSTEM;
}

/* Makes a new empty file under the other name, and never uses an existing one. Locks the file.
 * Returns a status. */
static uint32_t make_locked(const struct new_disk *it, struct disk_file *file, unsigned flags) {
    int *fd = &file->fd;
    for (int tries = 0; tries < MOST_TRIES; tries++) {
        uint32_t status = RLIBREG_SYSTEM;
        *fd = rlibreg_open_apart(it->folder, it->other, O_RDWR | O_CREAT | O_EXCL | O_CLOEXEC);
        if (*fd >= 0)
            status = lock_made(it, fd);
        else if (errno == EEXIST)
            status = take_leftover(it, flags, file->until);
        if (!status && *fd < 0) status = refuse_made(it);
        if (status || *fd >= 0) return status;
    }
    return RLIBREG_LOCKED;
}

/* Gives a file its length, and writes the block with the roots: on a full tmpfs, reading a hole
 * through the map would end the process. Returns 0, or -1 with errno. */
static int fill(int fd, size_t length) {
    static const uint8_t zeros[4096];
    if (ftruncate(fd, (off_t)length)) return -1;
    ssize_t wrote = pwrite(fd, zeros, sizeof zeros, 0);
    if (wrote >= 0 && wrote < (ssize_t)sizeof zeros) errno = ENOSPC;
    return wrote == (ssize_t)sizeof zeros ? 0 : -1;
}

uint32_t rlibreg_new_disk_make(struct new_disk *it, const char *path, size_t length,
                               struct disk_file *file, unsigned flags) {
    it->folder = open_folder(path);
    if (it->folder < 0) return RLIBREG_SYSTEM;
    it->name = name_in(path);
    if (snprintf(it->other, sizeof it->other, ".%s" ENDING, it->name) > NAME_MAX)
        strcpy(it->other, ENDING);
    struct stat made;
    uint32_t status = make_locked(it, file, flags);
    if (status) return status;
    if (fstat(file->fd, &made)) return RLIBREG_SYSTEM;
    status = rlibreg_disk_file_enlist(file, &made);
    if (status) return status;
    if (fill(file->fd, length)) return RLIBREG_SYSTEM;
    return rlibreg_disk_file_map(file, RLIBREG_READ_WRITE);
}

void rlibreg_new_disk_end(const struct new_disk *it, const struct disk_file *file) {
    int why = errno;
    if (it->folder >= 0 && file->fd >= 0) take_other(it, file->fd);
    errno = why;
    close_quietly(it->folder);
}

/* ---- The disk's own name */

/* Returns whether a link was refused because the file system has no links. */
static int lacks_links(void) {
    return errno == EPERM || errno == EOPNOTSUPP || errno == ENOSYS || errno == EMLINK;
}

/* Renames the file from the other name to its own name, if no file has that name. Returns 0, or -1
 * with errno. */
static int rename_file(const struct new_disk *it) {
    struct stat found;
    const long no_replace = 1; /* musl has neither the call nor its flag */
    if (!syscall(SYS_renameat2, it->folder, it->other, it->folder, it->name, no_replace)) return 0;
    if (errno != EINVAL && errno != ENOSYS) return -1;
    if (!look_at(it, it->name, &found)) {
        errno = EEXIST;
        return -1;
    }
    return errno == ENOENT ? renameat(it->folder, it->other, it->folder, it->name) : -1;
}

uint32_t rlibreg_new_disk_name(const struct new_disk *it, const struct disk_file *file) {
    if (!is_other_of(it, file->fd)) {
        errno = EAGAIN; /* a process that ignores the lock has removed the name */
        return RLIBREG_SYSTEM;
    }
    if (!linkat(it->folder, it->other, it->folder, it->name, 0)) {
        if (unlinkat(it->folder, it->other, 0)) return RLIBREG_DEVICE;
    } else if (!lacks_links() || rename_file(it)) {
        return RLIBREG_SYSTEM;
    } else if (fsync(file->fd)) { /* FAT stores a file's length with its name */
        return RLIBREG_DEVICE;
    }
    return bring_names(it->folder) ? RLIBREG_DEVICE : RLIBREG_DONE;
}

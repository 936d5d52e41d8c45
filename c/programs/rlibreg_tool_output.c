/* Writes the output of rlibreg-tool into a file that gets its name once it is whole. Until then the
 * file has another name in the same folder, or none if the file system makes files without names.
 * Whatever ends the process before, the file doesn't have its own name. */
#define _GNU_SOURCE
#include "rlibreg_tool_output.h"
#include "rlibreg_disk_file.h"

#include <errno.h>
#include <fcntl.h>
#include <limits.h>
#include <stdio.h>
#include <string.h>
#include <sys/file.h>
#include <sys/stat.h>
#include <unistd.h>

#define ENDING ".rlibreg-new"

enum { DONE = 0, FAILED = 3, MODE = 0666, READERS = 0444, TRIES = 16 };

static struct {
    const char *path;         /* path of the file, as the user wrote it */
    const char *name;         /* name of the file in its folder */
    int folder, fd;           /* descriptors */
    char other[NAME_MAX + 1]; /* name that the file has until it is whole, or empty */
} output = { .folder = -1, .fd = -1 };

/* Reports why the file can't be written. Returns the exit status. */
static int cannot_write(int why) {
    const char *text = why == ENOENT  ? "no such folder"
                       : why == EEXIST ? "a file of this name exists"
                       : why == ENOSPC ? "no space"
                       : why == EACCES || why == EPERM ? "not permitted"
                                                       : strerror(why);
    char line[PATH_MAX + 256];
    int length = snprintf(line, sizeof line, "rlibreg-tool: cannot write %s: %s\n", output.path, text);
    if (length >= (int)sizeof line) length = (int)sizeof line - 1;
    if (write(STDERR_FILENO, line, (size_t)length) < 0) return FAILED; /* nobody can be informed */
    return FAILED;
}

/* Opens the folder of the file. Returns 0, or -1 with errno. */
static int open_folder(void) {
    char folder[PATH_MAX];
    const char *slash = strrchr(output.path, '/');
    size_t length = slash ? (size_t)(slash + 1 - output.path) : 0;
    output.name = output.path + length;
    errno = length < sizeof folder ? EISDIR : ENAMETOOLONG;
    if (length >= sizeof folder || !*output.name) return -1;
    memcpy(folder, output.path, length);
    folder[length] = 0;
    output.folder = rlibreg_open_apart(AT_FDCWD, length ? folder : ".",
                                       O_RDONLY | O_DIRECTORY | O_CLOEXEC);
    return output.folder < 0 ? -1 : 0;
}

/* Refuses a name that something has. Returns 0, or -1 with errno. */
static int check_free(void) {
    struct stat found;
    if (fstatat(output.folder, output.name, &found, AT_SYMLINK_NOFOLLOW))
        return errno == ENOENT ? 0 : -1;
    errno = EEXIST;
    return -1;
}

/* Removes the other name if the file `fd` has it. */
static void take_other(int fd) {
    struct stat named, opened;
    if (*output.other && !fstatat(output.folder, output.other, &named, AT_SYMLINK_NOFOLLOW) &&
        !fstat(fd, &opened) && named.st_dev == opened.st_dev && named.st_ino == opened.st_ino)
        unlinkat(output.folder, output.other, 0);
}

/* Removes a file that a process which has ended left under the other name. Returns 0, or -1 with
 * errno. A process that makes such a file keeps it locked. */
static int take_leftover(void) {
    int fd = rlibreg_open_apart(output.folder, output.other,
                                O_RDONLY | O_NOFOLLOW | O_NONBLOCK | O_CLOEXEC);
    if (fd < 0) return errno == ENOENT ? 0 : -1;
    int failed = flock(fd, LOCK_EX | LOCK_NB), why = errno;
    if (!failed) take_other(fd);
    close(fd);
    errno = why == EWOULDBLOCK ? EBUSY : why;
    return failed;
}

/* Makes the file under the other name, and locks it. Returns its descriptor, or -1 with errno. */
static int make_named(void) {
    if (snprintf(output.other, sizeof output.other, ".%s" ENDING, output.name) > NAME_MAX)
        strcpy(output.other, ENDING);
    for (int tries = 0; tries < TRIES; tries++) {
        int fd = rlibreg_open_apart(output.folder, output.other,
                                    O_RDWR | O_CREAT | O_EXCL | O_CLOEXEC);
        if (fd >= 0 && !flock(fd, LOCK_EX | LOCK_NB)) return fd;
        if (fd >= 0) close(fd);
        if (fd < 0 && (errno != EEXIST || take_leftover())) return -1;
    }
    errno = EBUSY;
    return -1;
}

/* Makes the file without a name, or, if the file system has no such files, under the other name.
 * Returns its descriptor, or -1 with errno. */
static int make_file(void) {
    int fd = rlibreg_open_apart(output.folder, ".", O_TMPFILE | O_RDWR | O_CLOEXEC);
    if (fd >= 0) return fd;
    return errno == EOPNOTSUPP || errno == EISDIR || errno == EINVAL ? make_named() : -1;
}

int rlibreg_output_begin(const char *path) {
    output.path = path;
    if (open_folder() || check_free()) return cannot_write(errno);
    output.fd = make_file();
    if (output.fd < 0) return cannot_write(errno);
    if (dup2(output.fd, STDOUT_FILENO) >= 0) return DONE;
    int why = errno;
    take_other(output.fd);
    return cannot_write(why);
}

/* Gives a file without a name its name. Returns 0, or -1 with errno. */
static int link_unnamed(void) {
    char own[64];
    snprintf(own, sizeof own, "/proc/self/fd/%d", output.fd);
    return linkat(AT_FDCWD, own, output.folder, output.name, AT_SYMLINK_FOLLOW);
}

/* Replaces the other name by the file's own. Returns 0, or -1 with errno. */
static int rename_named(void) {
    if (!linkat(output.folder, output.other, output.folder, output.name, 0))
        return unlinkat(output.folder, output.other, 0);
    if (errno != EPERM && errno != EOPNOTSUPP && errno != ENOSYS && errno != EMLINK) return -1;
    if (check_free()) return -1;
    return renameat(output.folder, output.other, output.folder, output.name);
}

/* Brings the file to the medium, and gives it its name. Returns 0, or -1 with errno. */
static int publish(int may_run) {
    struct stat made;
    if (fstat(output.fd, &made)) return -1;
    if (may_run && fchmod(output.fd, (made.st_mode & 07777) | (made.st_mode & READERS) >> 2)) return -1;
    if (fsync(output.fd)) return -1;
    if (*output.other ? rename_named() : link_unnamed()) return -1;
    return fsync(output.folder);
}

int rlibreg_output_end(int status, int may_run) {
    int why = 0;
    if (status == DONE && publish(may_run)) why = errno;
    if (status != DONE || why) take_other(output.fd);
    return why ? cannot_write(why) : status;
}

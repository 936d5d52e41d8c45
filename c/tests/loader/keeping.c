/* Replaces the system calls that keep an image. The replacements have a clock that is ten seconds
 * ahead, so that no file was changed just now. They are linked into the loader with --wrap. Call
 * number DIE ends the process as a kill does, before it is made. Call number FAIL fails. Among the
 * reads that look for an image, read number READ fails. If OLD is set, the kernel lacks the call
 * to read pages, and if UNREAD is set, that call fails. */
#define _GNU_SOURCE
#include <errno.h>
#include <fcntl.h>
#include <signal.h>
#include <stdarg.h>
#include <stdint.h>
#include <stdio.h>
#include <stdlib.h>
#include <sys/stat.h>
#include <sys/uio.h>
#include <time.h>
#include <unistd.h>

#define WRAPPED(type, name, ...)    \
    type __real_##name(__VA_ARGS__); \
    type __wrap_##name(__VA_ARGS__); \
    type __wrap_##name(__VA_ARGS__)

static int is_number(const char *variable, long call) {
    return getenv(variable) && atol(getenv(variable)) == call;
}

static int fails(void) {
    static long calls;
    calls++;
    if (is_number("DIE", calls)) kill(getpid(), SIGKILL);
    errno = ENOSPC;
    return is_number("FAIL", calls);
}

WRAPPED(int, kernel_clock, struct timespec *now) {
    int failed = __real_kernel_clock(now);
    if (!failed) now->tv_sec += 10;
    return failed;
}

WRAPPED(int64_t, kernel_read, int fd, void *to, size_t length, uint64_t at) {
    static long reads;
    return is_number("READ", ++reads) ? -EIO : __real_kernel_read(fd, to, length, at);
}

WRAPPED(int, kernel_advise, uint64_t at, uint64_t length, int how) {
    if (getenv("OLD")) return -EINVAL;
    return getenv("UNREAD") ? -EFAULT : __real_kernel_advise(at, length, how);
}

int __real_openat(int folder, const char *path, int flags, ...);
int __wrap_openat(int folder, const char *path, int flags, ...);
int __wrap_openat(int folder, const char *path, int flags, ...) {
    va_list rest;
    va_start(rest, flags);
    mode_t mode = va_arg(rest, mode_t);
    va_end(rest);
    if ((flags & O_TMPFILE) == O_TMPFILE && fails()) return -1;
    return __real_openat(folder, path, flags, mode);
}

WRAPPED(int, fchmod, int fd, mode_t mode) {
    return fails() ? -1 : __real_fchmod(fd, mode);
}

static int is_synced; /* whether the file was synced since it was last written */

/* Writes at most `most` bytes, which is the number in SHORT. Every second call writes nothing, as
 * if a signal interrupted it. */
static ssize_t write_some(int fd, const struct iovec *parts, size_t most) {
    static int calls;
    errno = EINTR;
    if (calls++ % 2) return -1;
    return write(fd, parts->iov_base, parts->iov_len < most ? parts->iov_len : most);
}

WRAPPED(ssize_t, writev, int fd, const struct iovec *parts, int count) {
    const char *most = getenv("SHORT");
    is_synced = 0;
    if (fails()) return -1;
    return most && *most ? write_some(fd, parts, strtoul(most, NULL, 10)) : __real_writev(fd, parts, count);
}

WRAPPED(int, fdatasync, int fd) {
    is_synced = !fails() && !__real_fdatasync(fd);
    return is_synced ? 0 : -1;
}

WRAPPED(int, linkat, int from, const char *old, int to, const char *new, int flags) {
    if (!is_synced) {
        fputs("keeping.c: an image is named before it is on the medium\n", stderr);
        abort();
    }
    return fails() ? -1 : __real_linkat(from, old, to, new, flags);
}

WRAPPED(int, unlinkat, int folder, const char *name, int flags) {
    return fails() ? -1 : __real_unlinkat(folder, name, flags);
}

/* The watched calls. Each call is logged. It fails if the test has requested that, and otherwise it
 * is made. */
#define _GNU_SOURCE
#include "watched.h"

#include <dirent.h>
#include <fcntl.h>
#include <linux/loop.h>
#include <stdarg.h>
#include <stdint.h>
#include <sys/file.h>
#include <sys/ioctl.h>
#include <sys/mman.h>
#include <sys/stat.h>
#include <sys/statvfs.h>
#include <sys/syscall.h>
#include <sys/vfs.h>
#include <time.h>
#include <unistd.h>

#ifndef STATX_TYPE /* as in rlibreg_front.c */
#include <linux/stat.h>
#endif

struct watched watched;

void watch(void) {
    watched = (struct watched){ .is_on = 1, .first = -1, .second = -1, .end = -1 };
    watched.times = 1 << 20;
    watched.least = 3;
}

void unwatch(void) {
    watched.is_on = 0;
}

const char *made(const char *word) {
    return strstr(watched.log, word);
}

static int is_refused_word(const char *word) {
    if (watched.refused && !strcmp(word, watched.refused) && watched.times-- > 0) {
        errno = watched.because;
        return 1;
    }
    if (watched.refused_too && !strcmp(word, watched.refused_too)) {
        errno = watched.because_too;
        return 1;
    }
    return 0;
}

/* Logs a call. Returns whether the call has to fail. */
static int fails(const char *word, int only_looks) {
    if (!watched.is_on) return 0;
    long number = watched.calls++;
    size_t used = strlen(watched.log);
    if (!only_looks && used < sizeof watched.log - 32)
        snprintf(watched.log + used, sizeof watched.log - used, "%s ", word);
    if (number == watched.end) _exit(watched.end_status);
    if (watched.before) {
        watched.is_on = 0;
        watched.before(word);
        watched.is_on = 1;
    }
    if (number == watched.first || number == watched.second) {
        snprintf(watched.failed, sizeof watched.failed, "%s", word);
        errno = watched.why;
        return 1;
    }
    return is_refused_word(word);
}

/* ---- The calls */

#define WRAPPED(type, name, ...)                                                                   \
    type __real_##name(__VA_ARGS__);                                                               \
    type __wrap_##name(__VA_ARGS__);                                                               \
    type __wrap_##name(__VA_ARGS__)

static const char *word_of_open(int flags) {
    if (flags & O_CREAT) return flags & O_EXCL ? "make" : "make-or-open";
    if (flags & O_EXCL) return "open-alone";
    return flags & O_DIRECTORY ? "folder" : "open";
}

WRAPPED(int, open, const char *path, int flags, ...) {
    va_list more;
    va_start(more, flags);
    mode_t mode = flags & O_CREAT ? va_arg(more, mode_t) : 0;
    va_end(more);
    return fails(word_of_open(flags), 0) ? -1 : __real_open(path, flags, mode);
}

WRAPPED(int, openat, int folder, const char *path, int flags, ...) {
    va_list more;
    va_start(more, flags);
    mode_t mode = flags & O_CREAT ? va_arg(more, mode_t) : 0;
    va_end(more);
    /* O_EXCL without O_CREAT is meaningful only for devices */
    int true_flags = flags & O_CREAT ? flags : flags & ~O_EXCL;
    return fails(word_of_open(flags), 0) ? -1 : __real_openat(folder, path, true_flags, mode);
}

WRAPPED(int, fstat, int fd, struct stat *found) {
    if (fails("fstat", 1) || __real_fstat(fd, found)) return -1;
    if (watched.is_on && watched.device && S_ISREG(found->st_mode) && fd >= watched.least) {
        found->st_mode = S_IFBLK | 0600;
        found->st_rdev = watched.device;
        found->st_size = 0;
    }
    return 0;
}

WRAPPED(int, stat, const char *path, struct stat *found) {
    return fails("stat", 1) ? -1 : __real_stat(path, found);
}

WRAPPED(int, fstatat, int folder, const char *path, struct stat *found, int flags) {
    return fails("stat", 1) ? -1 : __real_fstatat(folder, path, found, flags);
}

WRAPPED(off_t, lseek, int fd, off_t at, int whence) {
    return fails("length", 1) ? -1 : __real_lseek(fd, at, whence);
}

/* Returns at once, but advances the clock. */
WRAPPED(int, nanosleep, const struct timespec *asked, struct timespec *left) {
    if (!watched.is_on) return __real_nanosleep(asked, left);
    WANT(asked->tv_sec == 0 && asked->tv_nsec > 0 && asked->tv_nsec <= 5000000);
    watched.slept += asked->tv_nsec;
    return fails("nap", 0) ? -1 : 0;
}

WRAPPED(int, clock_gettime, clockid_t clock, struct timespec *found) {
    if (!watched.is_on) return __real_clock_gettime(clock, found);
    WANT(clock == CLOCK_MONOTONIC);
    *found = (struct timespec){ 1 + watched.slept / 1000000000, watched.slept % 1000000000 };
    return 0;
}

WRAPPED(int, fstatfs, int fd, struct statfs *found) {
    if (fails("system", 1) || __real_fstatfs(fd, found)) return -1;
    if (watched.is_on && watched.system) found->f_type = watched.system;
    return 0;
}

static const char *word_of_mark(const struct flock *it) {
    if (it->l_type == F_UNLCK) return "unmark";
    return it->l_start & 1 ? "mark-changes" : "mark-waits";
}

WRAPPED(int, sync_file_range, int fd, off_t from, off_t length, unsigned how) {
    if (watched.is_on) WANT(!from && !length && how == 7); /* the request is for the whole file,
                                                            * with a wait */
    return fails("early", 0) ? -1 : __real_sync_file_range(fd, from, length, how);
}

WRAPPED(int, flock, int fd, int kind) {
    char word[32];
    snprintf(word, sizeof word, "%s%s", kind & LOCK_SH ? "lock-shared" : "lock-alone",
             kind & LOCK_NB ? "" : "-waits");
    if (kind == LOCK_UN) strcpy(word, "unlock");
    return fails(word, 0) ? -1 : __real_flock(fd, kind);
}

WRAPPED(int, fsync, int fd) {
    struct stat found;
    int is_file = !__real_fstat(fd, &found) && S_ISREG(found.st_mode);
    if (fails(is_file ? "sync" : "sync-folder", 0) || __real_fsync(fd)) return -1;
    if (is_file && watched.is_dirty && !watched.is_stuck) watched.differ = 0;
    if (is_file) watched.is_dirty = 0;
    return 0;
}

WRAPPED(int, fstatvfs, int fd, struct statvfs *found) {
    if (fails("system", 1) || __real_fstatvfs(fd, found)) return -1;
    if (watched.is_on && watched.is_read_only) found->f_flag |= ST_RDONLY;
    return 0;
}

/* The attribute never exists on a folder. */
WRAPPED(int, fremovexattr, int fd, const char *attribute) {
    struct stat found;
    WANT(!__real_fstat(fd, &found) && S_ISDIR(found.st_mode) && !strncmp(attribute, "user.", 5));
    if (!fails("names", 0)) errno = ENODATA;
    return -1;
}

WRAPPED(int, madvise, void *from, size_t length, int advice) {
    int is_refused = watched.is_on && watched.wipes_nothing && advice == MADV_WIPEONFORK;
    if (is_refused) errno = EINVAL;
    return is_refused ? -1 : __real_madvise(from, length, advice);
}

WRAPPED(int, pthread_atfork, void (*before)(void), void (*parent)(void), void (*child)(void)) {
    int is_refused = watched.is_on && watched.watches_no_forks;
    return is_refused ? ENOMEM : __real_pthread_atfork(before, parent, child);
}

/* ---- The front of a file, as the system keeps it and as the medium has it */

static int is_of_marks(int what) {
    return what == F_OFD_GETLK || what == F_OFD_SETLK || what == F_OFD_SETLKW;
}

/* A mark lies past the end of every disk. */
static int mark_fails(int what, const struct flock *it) {
    WANT(it->l_whence == SEEK_SET && it->l_start > (off_t)1 << 40 && it->l_len <= 2);
    if (what == F_OFD_GETLK) return fails("look", 1);
    return fails(word_of_mark(it), it->l_type == F_UNLCK);
}

WRAPPED(int, fcntl, int fd, int what, ...) {
    va_list more;
    va_start(more, what);
    long word = va_arg(more, long), flags = word;
    va_end(more);
    if (what == F_GETFL && fails("flags", 1)) return -1;
    if (is_of_marks(what) && mark_fails(what, (struct flock *)word)) return -1;
    if (!watched.is_on || what != F_SETFL) return __real_fcntl(fd, what, word);
    if (fails(flags & O_DIRECT ? "past" : "no-more-past", 1)) return -1;
    watched.is_past = flags & O_DIRECT;
    return __real_fcntl(fd, what, flags & ~O_DIRECT); /* the test's disk may have no O_DIRECT */
}

int __real_mincore(void *from, size_t length, unsigned char *kept);

/* Returns whether a page of memory was already written. Some file systems don't read the medium
 * into a page that was never written. */
static int is_there(void *page) {
    unsigned char kept;
    return !__real_mincore(page, 1, &kept) && kept & 1;
}

WRAPPED(ssize_t, pread, int fd, void *to, size_t length, off_t at) {
    int is_past = watched.is_on && watched.is_past;
    if (watched.is_on) WANT(at == 0 && length == 4096);
    if (fails(is_past ? "read-past" : "read", 0)) return -1;
    ssize_t got = __real_pread(fd, to, length, at);
    if (!is_past) return got;
    WANT(!((uintptr_t)to % 4096) && is_there(to) && !watched.is_dirty);
    if (watched.differ & 1) ((char *)to)[511] ^= 1;
    if (watched.differ & 2) ((char *)to)[512] ^= 1;
    return watched.past_length ? watched.past_length : got;
}

WRAPPED(int, ioctl, int fd, unsigned long what, ...) {
    va_list more;
    va_start(more, what);
    struct loop_info64 *at = va_arg(more, void *);
    va_end(more);
    if (!watched.is_on || what != LOOP_GET_STATUS64) return __real_ioctl(fd, what, at);
    if (fails("loop", 1)) return -1;
    *at = (struct loop_info64){ .lo_flags = watched.loop == 2 ? LO_FLAGS_DIRECT_IO : 0 };
    errno = ENOTTY;
    return watched.loop ? 0 : -1;
}

WRAPPED(int, posix_fadvise, int fd, off_t from, off_t length, int advice) {
    off_t more = watched.forgotten ? 2 * watched.forgotten : 4096;
    if (watched.is_on) WANT(from == 0 && length == more && advice == POSIX_FADV_DONTNEED);
    watched.forgotten = length;
    if (fails("forget", 0)) return errno;
    watched.is_gone = watched.keeps == 0;
    if (watched.is_gone) watched.differ = 0;
    if (watched.keeps) watched.keeps--;
    return __real_posix_fadvise(fd, from, length, advice);
}

WRAPPED(int, mincore, void *from, size_t length, unsigned char *kept) {
    if (fails("asked", 0)) return -1;
    if (!watched.is_on) return __real_mincore(from, length, kept);
    WANT(length == 1);
    *kept = !watched.is_gone;
    return 0;
}

/* Before the roots are compared, a map holds no page, because it allows no access. */
WRAPPED(void *, mmap, void *at, size_t length, int how, int kind, int fd, off_t from) {
    if (kind & MAP_ANONYMOUS)
        return fails("copy", 0) ? MAP_FAILED : __real_mmap(at, length, how, kind, fd, from);
    if (kind & MAP_PRIVATE) /* the disk as it will be after an update */
        return fails("map-after", 0) ? MAP_FAILED : __real_mmap(at, length, how, kind, fd, from);
    if (watched.is_on) WANT(kind == MAP_SHARED && from == 0);
    if (watched.is_on) WANT(how == PROT_READ || (how == PROT_NONE && length == 1));
    if (how == PROT_NONE) watched.forgotten = 0;
    int has_failed = fails(how == PROT_NONE ? "hold" : "map", 0);
    return has_failed ? MAP_FAILED : __real_mmap(at, length, how, kind, fd, from);
}

WRAPPED(int, ftruncate, int fd, off_t length) {
    watched.is_dirty = 1;
    return fails("cut", 0) ? -1 : __real_ftruncate(fd, length);
}

/* A write that fails has written a part, and so has a write at which the process ends. */
WRAPPED(ssize_t, pwrite, int fd, const void *from, size_t length, off_t at) {
    watched.is_dirty = 1;
    watched.wrote = length;
    if (watched.is_on && watched.calls == watched.end) __real_pwrite(fd, from, length / 2, at);
    if (fails("write", 0)) {
        int why = errno;
        __real_pwrite(fd, from, length / 3, at);
        errno = why;
        return -1;
    }
    if (watched.is_on && watched.is_short && length > 1) length = 1 + length / 3;
    return __real_pwrite(fd, from, length, at);
}

WRAPPED(int, linkat, int from, const char *old, int to, const char *new, int flags) {
    WANT(!watched.is_on || !watched.is_dirty); /* only a file that is on the medium gets a name */
    return fails("link", 0) ? -1 : __real_linkat(from, old, to, new, flags);
}

long __real_syscall(long number, ...);

static long attributes_of(va_list more) {
    int fd = va_arg(more, int);
    const char *path = va_arg(more, const char *);
    int flags = va_arg(more, int), mask = va_arg(more, int);
    struct statx *found = va_arg(more, struct statx *);
    if (fails("attributes", 1)) return -1;
    long answer = __real_syscall(SYS_statx, fd, path, flags, mask, found);
    if (watched.is_on && watched.is_encrypted) found->stx_attributes |= STATX_ATTR_ENCRYPTED;
    return answer;
}

static long rename_new(va_list more) {
    int from = va_arg(more, int);
    const char *old = va_arg(more, const char *);
    int to = va_arg(more, int);
    const char *new = va_arg(more, const char *);
    long flags = va_arg(more, long);
    const long no_replace = 1;
    WANT(flags == no_replace && (!watched.is_on || !watched.is_dirty));
    return fails("rename-new", 0) ? -1 : __real_syscall(SYS_renameat2, from, old, to, new, flags);
}

/* The library makes two calls in this way, which musl doesn't have. A test makes a third one,
 * clone, which runs no handlers. */
WRAPPED(long, syscall, long number, ...) {
    va_list more;
    WANT(number == SYS_statx || number == SYS_renameat2 || number == SYS_clone);
    va_start(more, number);
    long answer = number == SYS_statx   ? attributes_of(more)
                  : number == SYS_clone ? __real_syscall(number, va_arg(more, long), 0L, 0L, 0L, 0L)
                                        : rename_new(more);
    va_end(more);
    return answer;
}

WRAPPED(int, renameat, int from, const char *old, int to, const char *new) {
    WANT(!watched.is_on || !watched.is_dirty);
    return fails("rename", 0) ? -1 : __real_renameat(from, old, to, new);
}

WRAPPED(int, unlink, const char *path) {
    return fails("unlink", 0) ? -1 : __real_unlink(path);
}

WRAPPED(int, unlinkat, int folder, const char *path, int flags) {
    return fails("unlink", 0) ? -1 : __real_unlinkat(folder, path, flags);
}

/* ---- State that a test reads */

static int can_lock(const char *path, int kind) {
    int fd = __real_open(path, O_RDONLY | O_CLOEXEC, 0);
    WANT(fd >= 0);
    int can = !__real_flock(fd, kind | LOCK_NB);
    WANT(can || errno == EWOULDBLOCK);
    close(fd);
    return can;
}

int is_held_alone(const char *path) {
    return !can_lock(path, LOCK_SH);
}

int is_held(const char *path) {
    return !can_lock(path, LOCK_EX);
}

const char *names_here(void) {
    static char names[4096];
    struct dirent **found;
    int count = scandir(".", &found, NULL, alphasort);
    WANT(count >= 2);
    names[0] = 0;
    for (int i = 0; i < count; i++) {
        if (strcmp(found[i]->d_name, ".") && strcmp(found[i]->d_name, "..")) {
            strcat(names, found[i]->d_name);
            strcat(names, " ");
        }
        free(found[i]);
    }
    free(found);
    return names;
}

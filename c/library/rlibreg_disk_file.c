/* Opens, locks, syncs and maps the file of a disk. The calls over a file (rlibreg_file.c,
 * rlibreg_new_disk.c) call this. */
#define _GNU_SOURCE
#include "rlibreg_disk_file.h"
#include "rlibreg_turn.h"

#include <errno.h>
#include <fcntl.h>
#include <pthread.h>
#include <sys/file.h>
#include <sys/ioctl.h>
#include <sys/mman.h>
#include <sys/mount.h>
#include <unistd.h>

/* ---- The locks of this process, including those for which it waits */

static struct disk_file *enlisted;
static pthread_mutex_t guard = PTHREAD_MUTEX_INITIALIZER; /* protects the list */

static void hold_list(void) {
    pthread_mutex_lock(&guard);
}

static void free_list(void) {
    pthread_mutex_unlock(&guard);
}

/* Empties the list in a child of fork. Another thread of the parent may have been changing the
 * list. Closes the files for whose locks such a thread was waiting: otherwise the thread's marks
 * would stay with these files (rlibreg_turn.h). */
static void empty_list(void) {
    rlibreg_process_end();
    for (struct disk_file *it = enlisted; it; it = it->next) {
        if (!it->is_waiting) continue;
        close(it->fd);
        it->fd = -1;
        it->owner.number = 0;
    }
    enlisted = NULL;
    free_list();
}

/* The reason why forks aren't watched, an errno, or 0 if they are watched. A process whose forks
 * could go unnoticed opens no disk. */
static int why_unwatched; /* protected by `guard` after the first call */

static void watch_forks(void) {
    why_unwatched = pthread_atfork(hold_list, free_list, empty_list);
    rlibreg_process_begin();
}

/* Returns the number of the calling thread, which no other thread has. */
static uint64_t this_thread(void) {
    static uint64_t last; /* protected by `guard` */
    static _Thread_local uint64_t number;
    if (!number) number = ++last;
    return number;
}

static int excludes(const struct disk_file *one, const struct disk_file *other) {
    return one->device == other->device && one->number == other->number &&
           (one->is_alone || other->is_alone);
}

/* Returns a file for whose lock `thread` waits, or null. During the search number `search`, returns
 * each file only once. */
static struct disk_file *waiting(uint64_t thread, unsigned search) {
    struct disk_file *it = enlisted;
    while (it && !(it->is_waiting && it->thread == thread && it->search != search)) it = it->next;
    if (it) it->search = search;
    return it;
}

/* Returns whether a wait for the lock of `wanted` is a wait for `thread`: `thread` has the lock, or
 * the thread that has the lock waits for `thread` in turn. */
static int waits_for(const struct disk_file *wanted, uint64_t thread, unsigned search) {
    for (struct disk_file *it = enlisted; it; it = it->next) {
        if (it->is_waiting || !excludes(wanted, it)) continue;
        if (it->thread == thread) return 1;
        struct disk_file *next = waiting(it->thread, search);
        if (next && waits_for(next, thread, search)) return 1;
    }
    return 0;
}

/* Puts a file into the list. The caller must have locked `guard`. If the thread would wait for
 * itself, leaves the list unchanged and returns RLIBREG_LOCKED. */
static uint32_t put_into_list(struct disk_file *it, const struct stat *found, unsigned flags,
                              int is_waiting) {
    static unsigned searches;
    struct disk_file wanted = *it;
    wanted.owner = rlibreg_this_process();
    wanted.thread = this_thread();
    wanted.device = found->st_dev;
    wanted.number = found->st_ino;
    wanted.is_alone = !!(flags & RLIBREG_READ_WRITE);
    wanted.is_waiting = is_waiting;
    wanted.next = enlisted;
    int never = flags & RLIBREG_WAIT && waits_for(&wanted, wanted.thread, ++searches);
    if (!never) enlisted = it, *it = wanted;
    return never ? RLIBREG_LOCKED : RLIBREG_DONE;
}

static uint32_t enlist(struct disk_file *it, const struct stat *found, unsigned flags,
                       int is_waiting) {
    static pthread_once_t once = PTHREAD_ONCE_INIT;
    uint32_t status = RLIBREG_SYSTEM;
    pthread_once(&once, watch_forks);
    hold_list();
    if (why_unwatched) watch_forks();
    int why = why_unwatched;
    if (enlisted && !rlibreg_is_this_process(&enlisted->owner))
        enlisted = NULL; /* this is a child of clone(2), which runs no handler */
    if (!why) status = put_into_list(it, found, flags, is_waiting);
    free_list();
    if (why) errno = why;
    return status;
}

uint32_t rlibreg_disk_file_enlist(struct disk_file *it, const struct stat *found) {
    return enlist(it, found, RLIBREG_READ_WRITE, 0);
}

static void end_waiting(struct disk_file *it) {
    hold_list();
    it->is_waiting = 0;
    free_list();
}

void rlibreg_disk_file_use(struct disk_file *it) {
    hold_list();
    it->thread = this_thread();
    free_list();
}

static void strike(struct disk_file *it) {
    struct disk_file **at = &enlisted;
    hold_list();
    while (*at && *at != it) at = &(*at)->next;
    if (*at) *at = it->next;
    free_list();
}

/* ---- */

static int open_flags(unsigned flags) {
    int access = flags & RLIBREG_READ_WRITE ? O_RDWR : O_RDONLY;
    return access | O_CLOEXEC | O_NOCTTY | O_NONBLOCK; /* without this flag, the opening of a
                                                        * pipe would wait */
}

int rlibreg_flock(int fd, int kind) {
    return flock(fd, kind);
}

/* Locks a file. Returns 0, or -1 with errno. The system's udev locks a device for a moment after
 * each writer has closed it. For this reason, a change to a device retries for a moment, even
 * without RLIBREG_WAIT. */
static int lock(const struct disk_file *it, int is_device, unsigned flags) {
    int64_t until = flags & RLIBREG_WAIT ? it->until : 0;
    if (!(flags & RLIBREG_READ_WRITE)) return rlibreg_lock_shared(it->fd, until);
    if (is_device && !until) until = rlibreg_moment_in(RLIBREG_A_TURN);
    return rlibreg_lock_alone(it->fd, until);
}

uint32_t rlibreg_disk_file_lock(struct disk_file *it, const struct stat *found, unsigned flags) {
    uint32_t status = enlist(it, found, flags, 1);
    if (status) return status;
    int failed = lock(it, S_ISBLK(found->st_mode), flags);
    end_waiting(it);
    if (!failed) return RLIBREG_DONE;
    return errno == EWOULDBLOCK ? RLIBREG_LOCKED : RLIBREG_SYSTEM;
}

/* Opens the file of `path`, checks it and locks it. Returns a status. */
static uint32_t open_and_lock(struct disk_file *it, const char *path, unsigned flags,
                              struct stat *found) {
    it->fd = rlibreg_open_apart(AT_FDCWD, path, open_flags(flags));
    if (it->fd < 0 || fstat(it->fd, found)) return RLIBREG_SYSTEM;
    if (!S_ISBLK(found->st_mode) && !S_ISREG(found->st_mode)) {
        errno = EINVAL;
        return RLIBREG_SYSTEM;
    }
    if (rlibreg_stream_of_file(found) >= 0) return RLIBREG_SYSTEM;
    if (!(flags & RLIBREG_READ_WRITE) && rlibreg_write_out(it->fd)) return RLIBREG_SYSTEM;
    return rlibreg_disk_file_lock(it, found, flags);
}

/* Returns whether `path` still names the file that was locked, because another file may have
 * replaced it. */
static int is_still_there(const char *path, const struct stat *locked) {
    struct stat now;
    return !stat(path, &now) && now.st_dev == locked->st_dev && now.st_ino == locked->st_ino;
}

/* Opens a device again for a change, exclusively. The system refuses this if the device is mounted,
 * or in use in another way. The caller already has the lock, so two users of the registry never
 * meet here. Returns a status. */
static uint32_t claim(struct disk_file *it, const char *path, unsigned flags,
                      const struct stat *locked) {
    struct stat found;
    int is_read_only = 0;
    if (!(flags & RLIBREG_READ_WRITE) || !S_ISBLK(locked->st_mode)) return RLIBREG_DONE;
    it->claim = rlibreg_open_apart(AT_FDCWD, path, open_flags(flags) | O_EXCL);
    if (it->claim < 0 || fstat(it->claim, &found)) return RLIBREG_SYSTEM;
    ioctl(it->claim, BLKROGET, &is_read_only); /* a read-only device can be opened for writing,
                                                * but can't be written */
    if (!S_ISBLK(found.st_mode) || found.st_rdev != locked->st_rdev) return RLIBREG_LOCKED;
    errno = EROFS;
    return is_read_only ? RLIBREG_SYSTEM : RLIBREG_DONE;
}

/* Opens the file of `path` and locks it. Returns a status, which is RLIBREG_LOCKED if the path
 * names another file at each try. */
static uint32_t open_locked(struct disk_file *it, const char *path, unsigned flags) {
    for (int tries = 0; tries < MOST_TRIES; tries++) {
        struct stat found;
        uint32_t status = open_and_lock(it, path, flags, &found);
        if (status) return status;
        status = is_still_there(path, &found) ? claim(it, path, flags, &found) : RLIBREG_LOCKED;
        if (status != RLIBREG_LOCKED) return status;
        rlibreg_disk_file_close(it);
    }
    return RLIBREG_LOCKED;
}

/* Syncs a file, and makes the roots on the medium and those that the system shows equal. Returns 0,
 * or -1 with errno. If the file is open only for reading, and its file system has no syncs because
 * it is read-only (EINVAL), there is nothing to sync. A file system that a failure made read-only
 * returns EROFS: it has pages that the medium doesn't have. */
static int sync_file(int fd, unsigned flags) {
    if (!fsync(fd)) return rlibreg_meet_front(fd, fsync);
    return !(flags & RLIBREG_READ_WRITE) && errno == EINVAL ? 0 : -1;
}

uint32_t rlibreg_disk_file_map(struct disk_file *it, unsigned flags) {
    if (sync_file(it->fd, flags)) return RLIBREG_SYSTEM;
    off_t length = lseek(it->fd, 0, SEEK_END); /* fstat doesn't report the length of a device */
    if (length < 0) return RLIBREG_SYSTEM;
    if (!length) return RLIBREG_DONE; /* a disk without bytes: each call returns S6 (BadGeometry) */
    void *map = mmap(NULL, (size_t)length, PROT_READ, MAP_SHARED, it->fd, 0);
    if (map == MAP_FAILED) return RLIBREG_SYSTEM;
    it->bytes = map;
    it->length = (size_t)length;
    return RLIBREG_DONE;
}

uint32_t rlibreg_disk_file_open(struct disk_file *it, const char *path, unsigned flags) {
    uint32_t status = open_locked(it, path, flags);
    return status ? status : rlibreg_disk_file_map(it, flags);
}

void rlibreg_disk_file_close(struct disk_file *it) {
    int why = errno;
    if (it->bytes) munmap((void *)it->bytes, it->length);
    if (it->claim >= 0) close(it->claim);
    if (it->owner.number) strike(it);
    if (it->owner.number && rlibreg_is_this_process(&it->owner)) rlibreg_unlock(it->fd);
    if (it->fd >= 0) close(it->fd);
    *it = (struct disk_file){ .fd = -1, .claim = -1, .until = it->until };
    errno = why;
}

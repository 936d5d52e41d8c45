/* Wrong bodies of the program, for `syncs.py`: a library to preload before `medium.c`. It turns the calls of the program into other
   calls. BODY says which:

   right         changes nothing
   none          the cache isn't dropped
   small         only its first page is dropped
   before        it is dropped before the sync
   after_read    it is dropped after the first read
   second_page   it is dropped from the second page on
   compared_early    the roots are compared before the sync
   one_root          the second root isn't compared
   failed_equal      the roots count as equal if the read past memory fails
   written_unsynced  the roots in memory are written, and not synced
   compared_once     after the cache was dropped, or the roots written, they aren't compared again
   not_compared      the roots count as equal without a comparison
   unlocked      there is no lock
   shared        each lock is a shared one
   lock_late     the lock is taken after the first read
   lock_let_go   the lock is released before the second sync
   no_sync       the sync before the root isn't made
   no_last_sync  no sync after the root is made
   named_early   the file of another name becomes DISK before its first sync
   folder        the folder isn't synced
   unasked       after the folder's sync nothing asks whether the medium has the names
   asked_early   that is asked before the folder's sync
   left          no name is removed
   dead_written  the file that a dead process left is opened and written
   einval        a sync that returns EINVAL counts as done, whatever the file is open for
   erofs         a sync that returns EROFS counts as done

       gcc -std=c11 -O2 -U_FORTIFY_SOURCE -shared -fPIC -o bodies.so bodies.c */
#define _GNU_SOURCE
#include <dlfcn.h>
#include <errno.h>
#include <fcntl.h>
#include <stdarg.h>
#include <stdbool.h>
#include <stdio.h>
#include <stdlib.h>
#include <string.h>
#include <sys/file.h>
#include <sys/stat.h>
#include <sys/syscall.h>
#include <unistd.h>

enum { ROOM = 1024, LET_GO = 2 << 20, PAGE = 4096, SECTOR = 512, ROOTS = 1024 };
static int synced[ROOM], was_read[ROOM], compared[ROOM];
static bool named, is_past[ROOM], is_late[ROOM], wrote_roots[ROOM];

static bool is(const char *body) {
    const char *this = getenv("BODY");
    return this && !strcmp(this, body);
}

/* Returns whether the body drops the cache at a different place than the program. */
static bool moves_the_cache(void) {
    return is("none") || is("before") || is("after_read");
}

#define NEXT(answer, name, ...) ((answer (*)(__VA_ARGS__))dlsym(RTLD_NEXT, name))

static void let_go(int descriptor) {
    for (off_t size = PAGE; size <= LET_GO; size *= 2)
        NEXT(int, "posix_fadvise", int, off_t, off_t, int)(descriptor, 0, size, POSIX_FADV_DONTNEED);
}

int posix_fadvise(int descriptor, off_t from, off_t size, int advice) {
    if (moves_the_cache() || (is("small") && size > PAGE)) return 0;
    if (is("second_page")) from = PAGE;
    return NEXT(int, "posix_fadvise", int, off_t, off_t, int)(descriptor, from, size, advice);
}

int fcntl(int descriptor, int command, ...) {
    va_list words;
    va_start(words, command);
    long word = va_arg(words, long);
    va_end(words);
    int answer = NEXT(int, "fcntl", int, int, ...)(descriptor, command, word);
    if (command != F_SETFL) return answer;
    is_past[descriptor] = !answer && word & O_DIRECT;
    if (word & O_DIRECT || !is_late[descriptor]) return answer;
    is_late[descriptor] = false;
    return NEXT(int, "fsync", int)(descriptor);
}

/* Returns whether the body replaces this read past memory by a read of memory. */
static bool is_believed(int descriptor, ssize_t answer) {
    bool again = compared[descriptor]++;
    return is("not_compared") || (is("compared_once") && again) || (is("failed_equal") && answer < 0);
}

ssize_t pread(int descriptor, void *into, size_t size, off_t from) {
    ssize_t answer = NEXT(ssize_t, "pread", int, void *, size_t, off_t)(descriptor, into, size, from);
    if (!is_past[descriptor]) return answer;
    if (is_believed(descriptor, answer)) return syscall(SYS_pread64, descriptor, into, size, from);
    if (is("one_root") && answer >= ROOTS) syscall(SYS_pread64, descriptor, (char *)into + SECTOR, SECTOR, from + SECTOR);
    return answer;
}

ssize_t pwrite(int descriptor, const void *from, size_t size, off_t place) {
    wrote_roots[descriptor] = size == ROOTS && !place;
    return NEXT(ssize_t, "pwrite", int, const void *, size_t, off_t)(descriptor, from, size, place);
}

static bool is_folder(int descriptor) {
    struct stat facts;
    return !fstat(descriptor, &facts) && S_ISDIR(facts.st_mode);
}

static void name_it(void) {
    char path[4096], *slash;
    snprintf(path, sizeof path, "%s", getenv("MEDIUM_DISK"));
    if ((slash = strrchr(path, '/')) == NULL) abort();
    snprintf(slash + 1, sizeof path - (size_t)(slash + 1 - path), ".%s.rlibreg-new", strrchr(getenv("MEDIUM_DISK"), '/') + 1);
    named = !NEXT(int, "link", const char *, const char *)(path, getenv("MEDIUM_DISK"));
}

/* Returns whether sync number `number` of a file is left out. */
static bool is_left_out(int number) {
    return (is("no_sync") && number == 2) || (is("no_last_sync") && number > 2);
}

static int sync_file(int descriptor) {
    int number = ++synced[descriptor];
    is_late[descriptor] = number == 1 && is("compared_early");
    bool is_unsynced = wrote_roots[descriptor] && is("written_unsynced");
    wrote_roots[descriptor] = false;
    if (is_left_out(number) || is_late[descriptor] || is_unsynced) return 0;
    if (number == 1 && is("before")) let_go(descriptor);
    if (number == 1 && is("named_early")) name_it();
    if (number == 2 && is("lock_let_go")) NEXT(int, "flock", int, int)(descriptor, LOCK_UN);
    int answer = NEXT(int, "fsync", int)(descriptor);
    if (answer && ((is("einval") && errno == EINVAL) || (is("erofs") && errno == EROFS))) answer = 0;
    return answer;
}

static int ask_names(int descriptor, const char *attribute) {
    return NEXT(int, "fremovexattr", int, const char *)(descriptor, attribute);
}

int fremovexattr(int descriptor, const char *attribute) {
    errno = ENODATA;
    return is("unasked") || is("asked_early") ? -1 : ask_names(descriptor, attribute);
}

int fsync(int descriptor) {
    if (is_folder(descriptor) && is("asked_early") && ask_names(descriptor, "user.none") && errno == EROFS) return -1;
    if (is_folder(descriptor)) return is("folder") ? 0 : NEXT(int, "fsync", int)(descriptor);
    return sync_file(descriptor);
}

int fdatasync(int descriptor) {
    return fsync(descriptor);
}

ssize_t read(int descriptor, void *into, size_t size) {
    ssize_t answer = NEXT(ssize_t, "read", int, void *, size_t)(descriptor, into, size);
    if (synced[descriptor] && !was_read[descriptor]++) {
        if (is("after_read")) let_go(descriptor);
        if (is("lock_late")) NEXT(int, "flock", int, int)(descriptor, LOCK_EX | LOCK_NB);
    }
    return answer;
}

int close(int descriptor) {
    synced[descriptor] = was_read[descriptor] = compared[descriptor] = 0;
    return NEXT(int, "close", int)(descriptor);
}

int flock(int descriptor, int how) {
    if (is("unlocked") || is("lock_late")) return 0;
    return NEXT(int, "flock", int, int)(descriptor, is("shared") ? LOCK_SH | LOCK_NB : how);
}

int open(const char *path, int flags, ...) {
    mode_t mode = 0;
    if (flags & O_CREAT) {
        va_list words;
        va_start(words, flags);
        mode = va_arg(words, mode_t);
        va_end(words);
    }
    return NEXT(int, "open", const char *, int, ...)(path, is("dead_written") ? flags & ~O_EXCL : flags, mode);
}

int link(const char *from, const char *to) {
    return named ? 0 : NEXT(int, "link", const char *, const char *)(from, to);
}

int unlink(const char *path) {
    return is("left") ? 0 : NEXT(int, "unlink", const char *)(path);
}

/* A stand-in for a kernel, for `syncs.py`: a library to preload. It keeps the medium of the file DISK apart from the file.

   The file is the page cache. A write marks pages of 4,096 bytes dirty, and a sync writes these pages to the medium. A sync that has
   to fail returns EIO. The dirty pages are then treated as clean, whether the medium has them or not, and the file goes on showing
   them, also to later processes, until posix_fadvise(POSIX_FADV_DONTNEED) drops them: then the file shows what the medium has. The
   cache is in pieces of four pages. A piece is dropped if it is clean and lies whole in the range; mincore says that the first page is
   cached until it was dropped. A read with O_DIRECT, which has to be aligned, returns what the medium has, and for dirty pages what
   the file has: they are written back first, but not flushed, so a cut can still lose them. The medium has a name once the folder is
   synced or, as on a file system with a journal, the file itself. The stand-in doesn't see writes through maps, and it doesn't sleep.

       gcc -std=c11 -O2 -U_FORTIFY_SOURCE -shared -fPIC -o medium.so medium.c

   MEDIUM          the folder with the files `medium` (the bytes that the medium has), `state` (struct kept) and `log`
   MEDIUM_DISK     DISK as an absolute path; the file that becomes it is `.NAME.rlibreg-new` beside it
   MEDIUM_FAIL     which syncs of DISK and of its folder fail, counted from 1 on: numbers with a comma between them
   MEDIUM_BROUGHT  what a failing sync writes to the medium all the same: `none`, `all`, `first` (only the page of the roots),
                   `rest` (all pages but that one), `half` (the first half of each page), or `kept`: none, and they stay dirty
   MEDIUM_ERROR    the number that a failing sync leaves in errno; EIO without it
   MEDIUM_READ_ONLY  if it is set, neither file is opened for writing (EROFS), and each sync of one returns MEDIUM_ERROR
   MEDIUM_SILENT   if it is set, a failing sync succeeds: the failure was reported to another process
   MEDIUM_LOST     if it is set, the journal couldn't be written before the first sync of the folder, as on ext4: that sync and later
                   ones succeed and write no name, and no change of the folder begins from then on (EROFS)
   MEDIUM_MAPPED   if it is set, somebody has the front mapped: it isn't dropped
   MEDIUM_PAST     how reads with O_DIRECT fail: EINVAL when a descriptor gets O_DIRECT, if it is `refused`; or a number for errno
   MEDIUM_CUT      before which step the process ends: steps are the calls after which a machine can find something else */
#define _GNU_SOURCE
#include <errno.h>
#include <fcntl.h>
#include <libgen.h>
#include <limits.h>
#include <stdarg.h>
#include <stdbool.h>
#include <stdint.h>
#include <stdio.h>
#include <stdlib.h>
#include <string.h>
#include <sys/file.h>
#include <sys/mman.h>
#include <sys/stat.h>
#include <sys/syscall.h>
#include <sys/uio.h>
#include <time.h>
#include <unistd.h>

enum { ROOTS = 1024, PAGE = 4096, PAGES = 1024, PIECE = 4, DESCRIPTORS = 1024, HIGH = 500, CUT_STATUS = 86 };
enum name { OTHER, THE_DISK, THE_NEW, THE_FOLDER };

struct kept {
    uint8_t named[2]; /* whether the medium has the names DISK and `.NAME.rlibreg-new` */
    uint8_t lost; /* whether it gets no more names: the journal couldn't be written */
    uint8_t dirty[PAGES];
};

static struct kept *kept;
static enum name names[DESCRIPTORS];
static char disk[PATH_MAX], new_name[PATH_MAX], folder[PATH_MAX];
static int medium = -1, log_file = -1;
static int steps, syncs, cut;
static bool front_is_gone, is_past[DESCRIPTORS];

static int in_folder(const char *name, int flags) {
    char path[PATH_MAX + 16];
    snprintf(path, sizeof path, "%s/%s", getenv("MEDIUM"), name);
    int low = (int)syscall(SYS_openat, AT_FDCWD, path, flags | O_CLOEXEC, 0666);
    int high = (int)syscall(SYS_fcntl, low, F_DUPFD_CLOEXEC, HIGH);
    syscall(SYS_close, low);
    if (high < 0) abort();
    return high;
}

static const char *told(const char *variable, const char *otherwise) {
    const char *value = getenv(variable);
    return value ? value : otherwise;
}

static void start(void) {
    char copy[PATH_MAX];
    snprintf(disk, sizeof disk, "%s", getenv("MEDIUM_DISK"));
    snprintf(copy, sizeof copy, "%s", disk);
    snprintf(folder, sizeof folder, "%s", dirname(copy));
    snprintf(copy, sizeof copy, "%s", disk);
    if (snprintf(new_name, sizeof new_name, "%s/.%s.rlibreg-new", folder, basename(copy)) >= (int)sizeof new_name) abort();
    medium = in_folder("medium", O_RDWR);
    log_file = in_folder("log", O_WRONLY | O_APPEND | O_CREAT);
    kept = mmap(NULL, sizeof *kept, PROT_READ | PROT_WRITE, MAP_SHARED, in_folder("state", O_RDWR), 0);
    if (kept == MAP_FAILED) abort();
    cut = atoi(told("MEDIUM_CUT", "0"));
}

static bool ready(void) {
    if (!kept && getenv("MEDIUM")) start();
    return kept;
}

/* The log: a line for each call, which ends with its result. */
static void note(const char *form, ...) {
    char line[2 * PATH_MAX];
    int saved = errno;
    va_list words;
    va_start(words, form);
    int size = vsnprintf(line, sizeof line, form, words);
    va_end(words);
    if (syscall(SYS_write, log_file, line, (size_t)size) != size) abort();
    errno = saved;
}

/* Begins a step. If the cut is at this step, the process ends before it. */
static void step(void) {
    if (++steps == cut) _exit(CUT_STATUS);
}

static const char *said(enum name name) {
    return name == THE_DISK ? "disk" : name == THE_NEW ? "new" : name == THE_FOLDER ? "folder" : "other";
}

static const char *last(const char *path) {
    const char *slash = strrchr(path, '/');
    return slash ? slash + 1 : path;
}

static enum name name_of(const char *path) {
    struct stat this, that;
    if (!strcmp(last(path), last(disk))) return THE_DISK;
    if (!strcmp(last(path), last(new_name))) return THE_NEW;
    bool same = !stat(path, &this) && !stat(folder, &that) && this.st_dev == that.st_dev && this.st_ino == that.st_ino;
    return same ? THE_FOLDER : OTHER;
}

static enum name behind(int descriptor) {
    return ready() && descriptor >= 0 && descriptor < DESCRIPTORS ? names[descriptor] : OTHER;
}

static bool is_file(int descriptor) {
    enum name name = behind(descriptor);
    return name == THE_DISK || name == THE_NEW;
}

/* The state of the file. */

static off_t length_of(int descriptor) {
    struct stat facts;
    return fstat(descriptor, &facts) ? 0 : facts.st_size;
}

static void set_dirty(off_t from, size_t size) {
    for (off_t page = from / PAGE; size && page <= (from + (off_t)size - 1) / PAGE; page++) {
        if (page >= PAGES) abort();
        kept->dirty[page] = 1;
    }
}

/* Returns a new descriptor of the file for reading and writing, even if `descriptor` permits
 * less. */
static int file_again(int descriptor) {
    char path[64];
    snprintf(path, sizeof path, "/proc/self/fd/%d", descriptor);
    int file = (int)syscall(SYS_openat, AT_FDCWD, path, O_RDWR | O_CLOEXEC, 0);
    if (file < 0) abort();
    return file;
}

/* Copies the front of a page: zeros for missing bytes, and nothing past the end. */
static void copy_page(int from, int to, off_t page, size_t front, off_t end) {
    char bytes[PAGE] = {0};
    off_t place = page * PAGE, left = end - place;
    size_t size = left < (off_t)front ? (left < 0 ? 0 : (size_t)left) : front;
    if (syscall(SYS_pread64, from, bytes, size, place) < 0 || syscall(SYS_pwrite64, to, bytes, size, place) != (long)size) abort();
}

static void bring_names(void) {
    kept->named[0] = !access(disk, F_OK);
    kept->named[1] = !access(new_name, F_OK);
}

static bool is_brought(const char *brought, off_t page) {
    if (!strcmp(brought, "first")) return page == 0;
    if (!strcmp(brought, "rest")) return page != 0;
    return !strcmp(brought, "all") || !strcmp(brought, "half");
}

/* Writes to the medium the dirty pages that `brought` selects: all pages if the sync succeeds, and
 * otherwise the pages that a failing sync writes. */
static void bring_pages(int descriptor, const char *brought) {
    int file = file_again(descriptor);
    size_t front = !strcmp(brought, "half") ? PAGE / 2 : PAGE;
    for (off_t page = 0; page < PAGES; page++) {
        if (!kept->dirty[page]) continue;
        if (is_brought(brought, page)) copy_page(file, medium, page, front, length_of(file));
        kept->dirty[page] = !strcmp(brought, "kept");
    }
    if (!strcmp(brought, "all") && ftruncate(medium, length_of(file))) abort();
    syscall(SYS_close, file);
}

/* Returns whether the sync of this number has to fail. */
static bool is_to_fail(int number) {
    const char *list = getenv("MEDIUM_FAIL");
    if (getenv("MEDIUM_READ_ONLY")) return true;
    while (list && *list) {
        if (atoi(list) == number) return true;
        list = strchr(list, ',');
        if (list) list++;
    }
    return false;
}

static int sync_it(int descriptor) {
    step();
    bool fails = is_to_fail(++syncs);
    if (behind(descriptor) == THE_FOLDER && getenv("MEDIUM_LOST")) kept->lost = 1;
    const char *brought = fails ? told("MEDIUM_BROUGHT", "none") : "all";
    if (is_file(descriptor)) bring_pages(descriptor, brought);
    if (!strcmp(brought, "all") && !kept->lost) bring_names();
    int answer = fails && !getenv("MEDIUM_SILENT") ? -1 : 0;
    note("sync %d %s %d\n", descriptor, said(behind(descriptor)), answer);
    if (answer) errno = getenv("MEDIUM_ERROR") ? atoi(getenv("MEDIUM_ERROR")) : EIO;
    return answer;
}

static bool is_clean(off_t first) {
    for (off_t page = first; page < first + PIECE; page++) {
        if (kept->dirty[page]) return false;
    }
    return true;
}

/* Drops the clean pieces that lie whole in the range. The last piece of the file is also dropped if the range ends where the
 * file ends. */
static void let_go(int descriptor, off_t from, off_t size) {
    int file = file_again(descriptor);
    off_t end = length_of(file), stop = size ? from + size : end;
    for (off_t first = 0; first < PAGES && first * PAGE < end; first += PIECE) {
        bool whole = (first + PIECE) * PAGE <= stop || stop >= end;
        if (first * PAGE < from || !whole || !is_clean(first) || (!first && getenv("MEDIUM_MAPPED"))) continue;
        for (off_t page = first; page < first + PIECE; page++) copy_page(medium, file, page, PAGE, end);
        if (!first) front_is_gone = true;
    }
    syscall(SYS_close, file);
}

/* Reads bytes past the cache. Of each page it reads at most the bytes that the file has. */
static ssize_t bytes_past(int descriptor, char *into, size_t size, off_t from) {
    ssize_t length = syscall(SYS_pread64, descriptor, into, size, from);
    for (off_t at = 0; at < length; at += PAGE) {
        size_t part = length - at < PAGE ? (size_t)(length - at) : PAGE;
        if (kept->dirty[(from + at) / PAGE]) continue;
        memset(into + at, 0, part);
        if (syscall(SYS_pread64, medium, into + at, part, from + at) < 0) abort();
    }
    return length;
}

static bool roots_agree(int descriptor) {
    char file[ROOTS], past[ROOTS];
    ssize_t length = syscall(SYS_pread64, descriptor, file, ROOTS, 0);
    return length < 0 || (length == bytes_past(descriptor, past, ROOTS, 0) && !memcmp(file, past, (size_t)length));
}

static ssize_t read_past(int descriptor, void *into, size_t size, off_t from) {
    int error = atoi(told("MEDIUM_PAST", "0"));
    if (!error && ((uintptr_t)into % PAGE || size % PAGE || from % PAGE)) error = EINVAL;
    ssize_t answer = error ? -1 : bytes_past(descriptor, into, size, from);
    note("past %d %lld %zd %s\n", descriptor, (long long)from, answer, roots_agree(descriptor) ? "same" : "other");
    if (error) errno = error;
    return answer;
}

/* The calls. */

static int opened(int descriptor, const char *path, bool made) {
    if (descriptor < 0 || !ready()) return descriptor;
    if (descriptor >= DESCRIPTORS) abort();
    names[descriptor] = name_of(path);
    if (made && is_file(descriptor)) {
        memset(kept->dirty, 0, sizeof kept->dirty);
        if (ftruncate(medium, 0)) abort();
    }
    if (names[descriptor]) note("open %d %s %s\n", descriptor, said(names[descriptor]), made ? "made" : "found");
    return descriptor;
}

static int open_it(int at, const char *path, int flags, mode_t mode) {
    bool made = ready() && flags & O_CREAT && access(path, F_OK) && name_of(path);
    if (made) step();
    if (getenv("MEDIUM_READ_ONLY") && flags & (O_WRONLY | O_RDWR | O_CREAT) && ready() && name_of(path)) {
        errno = EROFS;
        return -1;
    }
    return opened((int)syscall(SYS_openat, at, path, flags, mode), path, made);
}

#define MODE_OF(flags) \
    mode_t mode = 0; \
    if ((flags) & O_CREAT) { \
        va_list words; \
        va_start(words, flags); \
        mode = va_arg(words, mode_t); \
        va_end(words); \
    }

int open(const char *path, int flags, ...) {
    MODE_OF(flags)
    return open_it(AT_FDCWD, path, flags, mode);
}

int open64(const char *path, int flags, ...) {
    MODE_OF(flags)
    return open_it(AT_FDCWD, path, flags, mode);
}

int openat(int at, const char *path, int flags, ...) {
    MODE_OF(flags)
    return open_it(at, path, flags, mode);
}

int openat64(int at, const char *path, int flags, ...) {
    MODE_OF(flags)
    return open_it(at, path, flags, mode);
}

int close(int descriptor) {
    if (behind(descriptor)) {
        note("close %d %s\n", descriptor, said(behind(descriptor)));
        names[descriptor] = OTHER;
        is_past[descriptor] = false;
    }
    return (int)syscall(SYS_close, descriptor);
}

static int doubled(int descriptor, int answer) {
    if (answer < 0 || !behind(descriptor)) return answer;
    if (answer >= DESCRIPTORS) abort();
    names[answer] = names[descriptor];
    note("double %d %d\n", descriptor, answer);
    return answer;
}

/* The file itself may lie on a file system without O_DIRECT. */
static int set_past(int descriptor, long flags) {
    if (flags & O_DIRECT && !strcmp(told("MEDIUM_PAST", ""), "refused")) {
        note("refused %d\n", descriptor);
        errno = EINVAL;
        return -1;
    }
    is_past[descriptor] = flags & O_DIRECT;
    return 0;
}

int fcntl(int descriptor, int command, ...) {
    va_list words;
    va_start(words, command);
    long word = va_arg(words, long);
    va_end(words);
    if (command == F_SETFL && is_file(descriptor)) return set_past(descriptor, word);
    int answer = (int)syscall(SYS_fcntl, descriptor, command, word);
    return command == F_DUPFD || command == F_DUPFD_CLOEXEC ? doubled(descriptor, answer) : answer;
}

int dup(int descriptor) {
    return doubled(descriptor, (int)syscall(SYS_dup, descriptor));
}

static ssize_t was_read(int descriptor, off_t from, ssize_t answer) {
    if (is_file(descriptor)) front_is_gone = false;
    if (is_file(descriptor)) note("read %d %lld %zd\n", descriptor, (long long)from, answer);
    return answer;
}

static off_t place_of(int descriptor) {
    return lseek(descriptor, 0, SEEK_CUR);
}

ssize_t read(int descriptor, void *into, size_t size) {
    off_t from = is_file(descriptor) ? place_of(descriptor) : 0;
    return was_read(descriptor, from, syscall(SYS_read, descriptor, into, size));
}

ssize_t readv(int descriptor, const struct iovec *into, int count) {
    off_t from = is_file(descriptor) ? place_of(descriptor) : 0;
    return was_read(descriptor, from, syscall(SYS_readv, descriptor, into, count));
}

ssize_t pread(int descriptor, void *into, size_t size, off_t from) {
    if (!is_file(descriptor)) return syscall(SYS_pread64, descriptor, into, size, from);
    if (is_past[descriptor]) return read_past(descriptor, into, size, from);
    ssize_t answer = syscall(SYS_pread64, descriptor, into, size, from);
    front_is_gone = false;
    note("kept %d %lld %zd\n", descriptor, (long long)from, answer);
    return answer;
}

ssize_t pread64(int descriptor, void *into, size_t size, off_t from) {
    return pread(descriptor, into, size, from);
}

static ssize_t was_written(int descriptor, off_t from, ssize_t answer) {
    if (is_file(descriptor)) {
        note("write %d %lld %zd\n", descriptor, (long long)from, answer);
        if (answer > 0) set_dirty(from, (size_t)answer);
    } else if (ready() && descriptor == 1) {
        note("reply %zd\n", answer);
    }
    return answer;
}

/* Returns the place of a write. A write to the file is a step. */
static off_t write_begins(int descriptor) {
    if (!is_file(descriptor)) return 0;
    step();
    return syscall(SYS_fcntl, descriptor, F_GETFL) & O_APPEND ? length_of(descriptor) : place_of(descriptor);
}

ssize_t write(int descriptor, const void *from, size_t size) {
    off_t place = write_begins(descriptor);
    return was_written(descriptor, place, syscall(SYS_write, descriptor, from, size));
}

ssize_t writev(int descriptor, const struct iovec *from, int count) {
    off_t place = write_begins(descriptor);
    return was_written(descriptor, place, syscall(SYS_writev, descriptor, from, count));
}

ssize_t pwrite(int descriptor, const void *from, size_t size, off_t place) {
    write_begins(descriptor);
    return was_written(descriptor, place, syscall(SYS_pwrite64, descriptor, from, size, place));
}

ssize_t pwrite64(int descriptor, const void *from, size_t size, off_t place) {
    return pwrite(descriptor, from, size, place);
}

int ftruncate(int descriptor, off_t size) {
    if (is_file(descriptor)) {
        step();
        note("truncate %d %lld\n", descriptor, (long long)size);
    }
    return (int)syscall(SYS_ftruncate, descriptor, size);
}

int ftruncate64(int descriptor, off_t size) {
    return ftruncate(descriptor, size);
}

int fsync(int descriptor) {
    return behind(descriptor) ? sync_it(descriptor) : (int)syscall(SYS_fsync, descriptor);
}

int fdatasync(int descriptor) {
    return fsync(descriptor);
}

/* The folder has no attributes. */
int fremovexattr(int descriptor, const char *name) {
    if (behind(descriptor) != THE_FOLDER) return (int)syscall(SYS_fremovexattr, descriptor, name);
    note("names %d folder %d\n", descriptor, kept->lost ? -1 : 0);
    errno = kept->lost ? EROFS : ENODATA;
    return -1;
}

int posix_fadvise(int descriptor, off_t from, off_t size, int advice) {
    if (is_file(descriptor) && advice == POSIX_FADV_DONTNEED) {
        note("letgo %d %lld %lld\n", descriptor, (long long)from, (long long)size);
        let_go(descriptor, from, size);
    }
    return 0;
}

int mincore(void *from, size_t size, unsigned char *is_kept) {
    (void)from, (void)size;
    *is_kept = !front_is_gone;
    note("asked %s\n", front_is_gone ? "gone" : "kept");
    return 0;
}

int nanosleep(const struct timespec *asked, struct timespec *left) {
    return ready() ? 0 : (int)syscall(SYS_nanosleep, asked, left);
}

int posix_fadvise64(int descriptor, off_t from, off_t size, int advice) {
    return posix_fadvise(descriptor, from, size, advice);
}

int flock(int descriptor, int how) {
    int answer = (int)syscall(SYS_flock, descriptor, how);
    const char *kind = how & LOCK_UN ? "none" : how & LOCK_EX ? "exclusive" : "shared";
    if (is_file(descriptor)) note("lock %d %s %s %d\n", descriptor, kind, how & LOCK_NB ? "at-once" : "waits", answer);
    return answer;
}

int linkat(int from_at, const char *from, int to_at, const char *to, int flags) {
    if (ready() && name_of(to)) step();
    int answer = (int)syscall(SYS_linkat, from_at, from, to_at, to, flags);
    if (ready() && name_of(to)) note("link %s %s %d\n", said(name_of(from)), said(name_of(to)), answer);
    return answer;
}

int link(const char *from, const char *to) {
    return linkat(AT_FDCWD, from, AT_FDCWD, to, 0);
}

int unlinkat(int at, const char *path, int flags) {
    if (ready() && name_of(path)) step();
    int answer = (int)syscall(SYS_unlinkat, at, path, flags);
    if (ready() && name_of(path)) note("unlink %s %d\n", said(name_of(path)), answer);
    return answer;
}

int unlink(const char *path) {
    return unlinkat(AT_FDCWD, path, 0);
}

int renameat2(int from_at, const char *from, int to_at, const char *to, unsigned flags) {
    if (ready() && name_of(to)) step();
    int answer = (int)syscall(SYS_renameat2, from_at, from, to_at, to, flags);
    if (ready() && name_of(to)) note("rename %s %s %d\n", said(name_of(from)), said(name_of(to)), answer);
    return answer;
}

int renameat(int from_at, const char *from, int to_at, const char *to) {
    return renameat2(from_at, from, to_at, to, 0);
}

int rename(const char *from, const char *to) {
    return renameat2(AT_FDCWD, from, AT_FDCWD, to, 0);
}

/* updates LIBRARY OTHER LONG PROGRAM makes updates of a disk, in the folder where it is run, and
 * binds PROGRAM against disks before they are updated. LIBRARY and OTHER have the SONAME `b`, LONG
 * has the SONAME `a`, and PROGRAM needs `b`. Refused memory is tried only if the test is compiled
 * without the sanitizer of addresses, which needs much memory itself. */
#define _GNU_SOURCE
#include "watched.h"

#include <sys/mman.h>
#include <sys/resource.h>
#include <sys/wait.h>
#include <unistd.h>

enum { SECTOR = 512, SECTORS = 128, MOST = 2000, GREATEST = 4194304 };

#define DISK "disk"
#define BASE 0x10000

struct file {
    char bytes[1 << 16];
    size_t length;
};
static struct file library, other, longer, program;

static void read_file(struct file *it, const char *path) {
    FILE *file = fopen(path, "rb");
    WANT(file && (it->length = fread(it->bytes, 1, sizeof it->bytes, file)));
    WANT(it->length < sizeof it->bytes && !fclose(file));
}

/* ---- A disk */

static char before[SECTORS * SECTOR], after[SECTORS * SECTOR];

static void read_disk(char *bytes) {
    FILE *file = fopen(DISK, "rb");
    WANT(file && fread(bytes, 1, SECTORS * SECTOR, file) == SECTORS * SECTOR && !fclose(file));
}

static int is_as_before(void) {
    read_disk(after);
    return !memcmp(before, after, sizeof before);
}

/* Returns a disk that has the library `b`, which is also a preload. */
static rlibreg *formatted(uint32_t sectors) {
    const char *const names[] = { "b" };
    rlibreg *it = rlibreg_create();
    unlink(DISK);
    WANT(it && !rlibreg_format(it, DISK, sectors, 0));
    WANT(!rlibreg_install(it, library.bytes, library.length) && !rlibreg_preload(it, names, 1));
    return it;
}

static rlibreg *opened(unsigned flags) {
    rlibreg *it = rlibreg_create();
    WANT(it && !rlibreg_open(it, DISK, flags));
    return it;
}

static const char *listed(rlibreg *it) {
    static char text[4096];
    rlibreg_listing listing;
    WANT(!rlibreg_get_listing(it, &listing));
    size_t at = (size_t)sprintf(text, "%d", (int)listing.generation);
    for (size_t i = 0; i < listing.libraries + listing.preloads; i++)
        at += (size_t)sprintf(text + at, " %s %u", listing.names + listing.entries[i].name,
                              listing.entries[i].file_length);
    rlibreg_listing_free(&listing);
    return text;
}

/* ---- An update */

static rlibreg_change changes[MOST];
static char *bytes;
static size_t count, length;

static void begin(void) {
    count = length = 0;
}

static void add(uint64_t kind, const void *own, size_t own_length) {
    WANT(count < MOST);
    bytes = realloc(bytes, length + own_length + 1);
    WANT(bytes);
    memcpy(bytes + length, own, own_length);
    changes[count++] = (rlibreg_change){ kind, length, own_length };
    length += own_length;
}

static void add_file(uint64_t kind, const struct file *file) {
    add(kind, file->bytes, file->length);
}

static uint32_t update(rlibreg *it) {
    return rlibreg_update(it, changes, count, bytes, length);
}

static uint32_t image_after(rlibreg *it, rlibreg_image *image) {
    return rlibreg_preview_bind(it, changes, count, bytes, length, program.bytes,
                                program.length, BASE, image);
}

static int are_same(const rlibreg_image *one, const rlibreg_image *other_one) {
    size_t all = 0;
    for (size_t i = 0; i < one->count; i++) all += one->segments[i].length;
    return one->count == other_one->count && one->object_count == other_one->object_count &&
           !memcmp(one->segments, other_one->segments, one->count * sizeof *one->segments) &&
           !memcmp(one->objects, other_one->objects, one->object_count * sizeof *one->objects) &&
           !memcmp(one->bytes, other_one->bytes, all);
}

/* Checks that a preview of a bind returns the same as a bind after the update, even if the disk is
 * open only for reading, and that the preview doesn't change the disk. */
static void want_bound(uint32_t status) {
    rlibreg_image tried, shared, found;
    read_disk(before);
    rlibreg *it = opened(0);
    WANT(image_after(it, &shared) == status);
    WANT(update(it) == RLIBREG_READ_ONLY);
    rlibreg_close(it);
    it = opened(RLIBREG_READ_WRITE);
    WANT(image_after(it, &tried) == status && rlibreg_last_answer(it)->status == status);
    WANT(is_as_before());
    char *line = strdup(rlibreg_text(it));
    WANT(!update(it) && !is_as_before() && !strcmp(rlibreg_text(it), "ok\n"));
    WANT(rlibreg_bind_program(it, program.bytes, program.length, BASE, &found) == status);
    WANT(!strcmp(rlibreg_text(it), line));
    if (status) WANT(!tried.bytes && !tried.segments && !tried.objects && !tried.count);
    if (!status) WANT(are_same(&tried, &found) && are_same(&tried, &shared));
    rlibreg_image_free(&tried);
    rlibreg_image_free(&shared);
    rlibreg_image_free(&found);
    free(line);
    rlibreg_close(it);
}

/* Checks that change number `behind` (from 0) is refused with `status`, by the update and by a bind
 * that previews it. */
static void want_refused(uint32_t status, uint64_t behind, const char *line) {
    rlibreg_image image;
    read_disk(before);
    rlibreg *it = opened(RLIBREG_READ_WRITE);
    for (int binds = 0; binds < 2; binds++) {
        WANT((binds ? image_after(it, &image) : update(it)) == status && is_as_before());
        WANT(rlibreg_last_answer(it)->count == behind && rlibreg_last_answer(it)->status == status);
        WANT(rlibreg_last_answer(it)->file_refusal == (status == RLIBREG_BAD_FILE ? 1 : 0));
        WANT(!strcmp(rlibreg_text(it), line) && !rlibreg_errno(it));
    }
    WANT(!image.bytes && !image.segments && !image.objects && !image.count);
    rlibreg_close(it);
}

/* ---- */

static void try_binds(void) {
    begin();
    add_file(RLIBREG_REPLACE, &other);
    add_file(RLIBREG_INSTALL, &longer);
    add(RLIBREG_PRELOAD, "a\0b", 4);
    want_bound(RLIBREG_DONE);
    begin();
    add(RLIBREG_PRELOAD, "", 0);
    add(RLIBREG_REMOVE, "b", 1);
    want_bound(RLIBREG_MISSING);
    begin();
    add_file(RLIBREG_INSTALL, &library);
    add(RLIBREG_REMOVE, "a", 1);
    want_bound(RLIBREG_DONE);
    rlibreg *it = opened(0);
    char wanted[64];
    snprintf(wanted, sizeof wanted, "5 b %zu", library.length);
    WANT(!strcmp(listed(it), wanted));
    rlibreg_close(it);
}

/* Checks that an update without changes writes nothing. */
static void try_nothing(void) {
    rlibreg *it = formatted(SECTORS);
    read_disk(before);
    WANT(!rlibreg_update(it, NULL, 0, NULL, 0) && !strcmp(rlibreg_text(it), "ok\n"));
    WANT(rlibreg_last_answer(it)->count == 1 && is_as_before());
    rlibreg_close(it);
}

static void try_refusals(void) {
    begin();
    add_file(RLIBREG_INSTALL, &longer);
    for (uint64_t behind = 1; behind < 100; behind++) {
        add_file(RLIBREG_INSTALL, &other);
        want_refused(RLIBREG_ALREADY_INSTALLED, behind, "refused C2 AlreadyInstalled\n");
        count--;
        add(RLIBREG_INSTALL, "", 0);
        want_refused(RLIBREG_BAD_FILE, behind, "refused C1 E1 TooShort\n");
        count--;
        add(RLIBREG_REMOVE, "c", 1);
        want_refused(RLIBREG_NOT_INSTALLED, behind, "refused C3 NotInstalled\n");
        count--;
        add(RLIBREG_PRELOAD, behind % 2 ? "a" : "b", 2);
    }
}

static void try_bad_arguments(void) {
    const rlibreg_change bad[] = {
        { 0, 0, 1 },
        { 5, 0, 1 },
        { RLIBREG_REMOVE, 0, UINT64_MAX },
        { RLIBREG_REMOVE, UINT64_MAX, 2 },
        { RLIBREG_INSTALL, 0, library.length + 1 },
        { RLIBREG_PRELOAD, 0, 1 },
    };
    for (size_t i = 0; i < sizeof bad / sizeof *bad; i++) {
        begin();
        add_file(RLIBREG_REPLACE, &library);
        changes[count++] = bad[i];
        want_refused(RLIBREG_BAD_ARGUMENT, 0, "");
    }
}

static int syncs;

static void count_sync(const char *word) {
    syncs += !strcmp(word, "sync");
}

/* Returns the number of syncs that a change makes. */
static int syncs_of(rlibreg *it, uint32_t (*change)(rlibreg *)) {
    syncs = 0;
    watch();
    watched.before = count_sync;
    WANT(!change(it));
    unwatch();
    return syncs;
}

static uint32_t replace(rlibreg *it) {
    return rlibreg_replace(it, other.bytes, other.length);
}

/* Checks that an update of any number of changes makes the same number of syncs, and one
 * generation. */
static void try_many(void) {
    char wanted[64];
    rlibreg *it = formatted(SECTORS);
    begin();
    add(RLIBREG_PRELOAD, "", 0);
    while (count + 2 < MOST) {
        add(RLIBREG_REMOVE, "b", 1);
        add_file(RLIBREG_INSTALL, count % 4 == 1 ? &library : &other);
    }
    add(RLIBREG_PRELOAD, "b", 2);
    WANT(syncs_of(it, replace) == 3 && syncs_of(it, update) == 3);
    snprintf(wanted, sizeof wanted, "4 b %zu b 0", other.length);
    WANT(!strcmp(listed(it), wanted));
    rlibreg_close(it);
}

/* Tries a disk of the greatest length, which is sparse. */
static void try_the_greatest(void) {
    rlibreg_image image;
    rlibreg *it = formatted(GREATEST);
    begin();
    add_file(RLIBREG_REPLACE, &other);
    add_file(RLIBREG_INSTALL, &longer);
    WANT(!image_after(it, &image) && image.object_count == 2);
    rlibreg_image_free(&image);
    WANT(!update(it));
    rlibreg_close(it);
}

/* ---- Memory */

/* Checks that a preview of a bind is refused memory, and that the update itself isn't. */
static void want_no_memory(rlibreg *it) {
    rlibreg_image image;
    WANT(image_after(it, &image) == RLIBREG_OUT_OF_MEMORY && !image.bytes && !image.count);
    WANT(!strcmp(rlibreg_text(it), "refused S11 OutOfMemory\n") && !rlibreg_errno(it));
    const rlibreg_answer *answer = rlibreg_last_answer(it);
    WANT(answer->count == 0 && answer->status == RLIBREG_OUT_OF_MEMORY);
}

static void try_no_map(void) {
    rlibreg_image image;
    rlibreg *it = formatted(SECTORS);
    begin();
    add_file(RLIBREG_REPLACE, &other);
    read_disk(before);
    watch();
    watched.refused = "map-after";
    watched.because = ENOMEM;
    want_no_memory(it);
    WANT(made("map-after") && !made("write") && !made("sync") && is_as_before());
    unwatch();
    WANT(!image_after(it, &image));
    rlibreg_image_free(&image);
    WANT(!update(it));
    rlibreg_close(it);
}

#ifndef __SANITIZE_ADDRESS__
/* FREE is the number of bytes that a bind can get, and LONG the number of sectors of a disk that
 * doesn't fit into them. */
enum { SKIPPED = 77, FREE = 7 << 20, LONG = 1 << 17 };

/* Limits the memory that the system counts as data (RLIMIT_DATA). */
static int limit_data(void) {
    unsigned long pages;
    FILE *file = fopen("/proc/self/statm", "r");
    WANT(file && fscanf(file, "%*u %*u %*u %*u %*u %lu", &pages) == 1 && !fclose(file));
    const rlim_t most = pages * (unsigned long)getpagesize() + FREE;
    const struct rlimit limit = { most, most };
    return setrlimit(RLIMIT_DATA, &limit);
}

/* Limits the memory that is locked (RLIMIT_MEMLOCK). Root has no such limit, so the process becomes
 * another user. */
static int lock_memory(void) {
    const struct rlimit limit = { FREE, FREE };
    if (setrlimit(RLIMIT_MEMLOCK, &limit)) return -1;
    if (!geteuid()) WANT(!seteuid(65534));
    return mlockall(MCL_FUTURE);
}

/* Checks that, with so little memory, a preview of a bind succeeds on a small disk, and fails on a
 * long one. */
static void bind_and_update(rlibreg *it, uint32_t sectors) {
    rlibreg_image image;
    if (sectors != SECTORS) {
        want_no_memory(it);
    } else {
        WANT(!image_after(it, &image));
        rlibreg_image_free(&image);
    }
    WANT(!update(it));
    rlibreg_close(it);
}

static void try_limits(const char *which, int (*set)(void), uint32_t sectors) {
    int status;
    rlibreg_close(formatted(sectors));
    begin();
    add_file(RLIBREG_REPLACE, &other);
    fflush(stdout);
    pid_t child = fork();
    WANT(child >= 0);
    if (!child) {
        rlibreg *it = opened(RLIBREG_READ_WRITE);
        if (set()) _exit(SKIPPED);
        bind_and_update(it, sectors);
        _exit(0);
    }
    WANT(waitpid(child, &status, 0) == child && WIFEXITED(status));
    WANT(!WEXITSTATUS(status) || WEXITSTATUS(status) == SKIPPED);
    if (WEXITSTATUS(status)) printf("skipped: updates under %s, which can't be set\n", which);
}
#endif

int main(int argc, char **argv) {
    WANT(argc == 5);
    read_file(&library, argv[1]);
    read_file(&other, argv[2]);
    read_file(&longer, argv[3]);
    read_file(&program, argv[4]);
    rlibreg_close(formatted(SECTORS));
    try_binds();
    try_nothing();
    try_refusals();
    try_bad_arguments();
    try_many();
    try_the_greatest();
    try_no_map();
#ifndef __SANITIZE_ADDRESS__
    for (uint32_t sectors = SECTORS; sectors <= LONG; sectors += LONG - SECTORS) {
        try_limits("counted memory", limit_data, sectors);
        try_limits("locked memory", lock_memory, sectors);
    }
#endif
    WANT(!strcmp(names_here(), "disk ") && !unlink(DISK));
    free(bytes);
    puts("updates: a bind before an update is the one after it, refusals have their place, and "
         "memory is refused");
    return 0;
}

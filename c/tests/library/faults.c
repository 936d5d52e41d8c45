/* faults LIBRARY OTHER PROGRAM NAME OLD makes every change of a disk, in the folder where it is
 * run. It makes each call of the system fail, from the opening of the disk to its closing. It also
 * ends the process at each of them, and makes each growth of memory fail. Afterwards the disk has
 * to be the old one or the new one, in agreement with the answer. LIBRARY and OTHER have the SONAME
 * NAME and different lengths. PROGRAM needs it. OLD is a disk of version 1. The test is linked with
 * --wrap of malloc, calloc and realloc, besides the watched calls. */
#define _GNU_SOURCE
#include "watched.h"

#include <fcntl.h>
#include <sys/wait.h>
#include <unistd.h>

#define DISK "disk"

/* ---- Growths of memory that fail */

static long growths = -1; /* number of growths before the one that fails, or -1 */

static int is_due(void) {
    if (growths < 0) return 0;
    return growths-- == 0;
}

void *__real_malloc(size_t size);
void *__wrap_malloc(size_t size);
void *__real_calloc(size_t count, size_t size);
void *__wrap_calloc(size_t count, size_t size);
void *__real_realloc(void *at, size_t size);
void *__wrap_realloc(void *at, size_t size);

void *__wrap_malloc(size_t size) {
    return is_due() ? NULL : __real_malloc(size);
}

void *__wrap_calloc(size_t count, size_t size) {
    return is_due() ? NULL : __real_calloc(count, size);
}

void *__wrap_realloc(void *at, size_t size) {
    return is_due() ? NULL : __real_realloc(at, size);
}

/* ---- Files and disks */

struct file {
    char bytes[1 << 20];
    size_t length;
};
static struct file library, other, program, old;
static const char *name;

static void read_file(struct file *it, const char *path) {
    FILE *file = fopen(path, "rb");
    WANT(file && (it->length = fread(it->bytes, 1, sizeof it->bytes, file)));
    WANT(it->length < sizeof it->bytes && !fclose(file));
}

static void put(const char *bytes, size_t length, off_t whole) {
    int fd = open(DISK, O_WRONLY | O_CREAT | O_TRUNC, 0666);
    WANT(fd >= 0 && write(fd, bytes, length) == (ssize_t)length && !ftruncate(fd, whole));
    WANT(!close(fd));
}

/* Returns the content of the disk: its listing, or the refusal of the listing. */
static const char *state(void) {
    static char text[4096];
    rlibreg_listing listing;
    rlibreg *it = rlibreg_create();
    WANT(it);
    uint32_t status = rlibreg_open(it, DISK, 0);
    WANT(!status || (status == RLIBREG_SYSTEM && errno == ENOENT));
    if (!status) rlibreg_get_listing(it, &listing);
    snprintf(text, sizeof text, "%s", status ? "none" : rlibreg_text(it));
    if (!status) rlibreg_listing_free(&listing);
    rlibreg_close(it);
    return text;
}

/* ---- Changes */

struct change {
    const char *what;
    void (*prepare)(void);
    uint32_t (*make)(rlibreg *it);
    int opens; /* whether the change opens the disk itself */
    char before[256], after[256];
};

static uint32_t make_install(rlibreg *it) {
    return rlibreg_install(it, library.bytes, library.length);
}

static uint32_t make_replace(rlibreg *it) {
    return rlibreg_replace(it, other.bytes, other.length);
}

static uint32_t make_remove(rlibreg *it) {
    return rlibreg_remove(it, name);
}

static uint32_t make_preload(rlibreg *it) {
    return rlibreg_preload(it, &name, 1);
}

/* An update that replaces the library, sets the preloads, installs and removes. A listing shows all
 * of these changes or none. */
static struct update {
    rlibreg_change changes[4];
    char bytes[2 << 20];
    size_t count, length;
} updated;

static void add(uint64_t kind, const void *bytes, size_t length) {
    updated.changes[updated.count++] = (rlibreg_change){ kind, updated.length, length };
    memcpy(updated.bytes + updated.length, bytes, length);
    updated.length += length;
}

static void fill_update(void) {
    add(RLIBREG_REPLACE, other.bytes, other.length);
    add(RLIBREG_PRELOAD, name, strlen(name) + 1);
    add(RLIBREG_REPLACE, library.bytes, library.length);
    add(RLIBREG_REPLACE, other.bytes, other.length);
}

static uint32_t make_update(rlibreg *it) {
    return rlibreg_update(it, updated.changes, updated.count, updated.bytes, updated.length);
}

static uint32_t preview_bind(rlibreg *it, uint64_t base, rlibreg_image *image) {
    return rlibreg_preview_bind(it, updated.changes, updated.count, updated.bytes,
                                updated.length, program.bytes, program.length, base, image);
}

static uint32_t make_format(rlibreg *it) {
    return rlibreg_format(it, DISK, 128, 0);
}

static void leave_nothing(void) {
    unlink(DISK);
}

static void leave_zeros(void) {
    put("", 0, 128 * 512);
}

static void leave_empty(void) {
    unlink(DISK);
    rlibreg *it = rlibreg_create();
    WANT(it && !make_format(it));
    rlibreg_close(it);
}

static void leave_library(void) {
    unlink(DISK);
    rlibreg *it = rlibreg_create();
    WANT(it && !make_format(it) && !make_install(it));
    rlibreg_close(it);
}

static void leave_old(void) {
    put(old.bytes, old.length, (off_t)old.length);
}

static struct change changes[] = {
    { .what = "install", .prepare = leave_empty, .make = make_install },
    { .what = "replace", .prepare = leave_library, .make = make_replace },
    { .what = "delete", .prepare = leave_library, .make = make_remove },
    { .what = "preload", .prepare = leave_library, .make = make_preload },
    { .what = "update", .prepare = leave_library, .make = make_update },
    { .what = "upgrade", .prepare = leave_old, .make = rlibreg_upgrade },
    { .what = "format", .prepare = leave_nothing, .make = make_format, .opens = 1 },
    { .what = "format in place", .prepare = leave_zeros, .make = make_format, .opens = 1 },
};

/* The outcome of a change: the status of its opening, the status of the change, and errno. */
struct outcome {
    uint32_t opened, status;
    int why;
};

static uint32_t get_bindings(rlibreg *it, uint64_t base, char **text, size_t *length) {
    return rlibreg_get_bindings(it, program.bytes, program.length, base, text, length);
}

static uint32_t get_executable(rlibreg *it, uint64_t base, void **bytes, size_t *length) {
    return rlibreg_get_executable(it, program.bytes, program.length, base, bytes, length);
}

/* Checks that a struct, after S1 (Device), refuses every call with S2 (Reopen). */
static void want_reopen(rlibreg *it, const struct change *change) {
    char *text;
    rlibreg_listing listing;
    rlibreg_image image;
    rlibreg_information information;
    rlibreg_findings findings;
    uint8_t digest[RLIBREG_DIGEST_BYTES] = { 0 };
    void *bytes;
    size_t length;
    if (change->opens) return; /* the struct has no file then */
    WANT(change->make(it) == RLIBREG_REOPEN);
    WANT(!strcmp(rlibreg_text(it), "refused S2 Reopen\n"));
    WANT(rlibreg_get_listing(it, &listing) == RLIBREG_REOPEN && !listing.entries);
    WANT(rlibreg_bind_program(it, program.bytes, program.length, 0, &image) == RLIBREG_REOPEN);
    WANT(rlibreg_last_answer(it)->status == RLIBREG_REOPEN && !image.bytes);
    WANT(preview_bind(it, 0, &image) == RLIBREG_REOPEN && !image.bytes);
    WANT(rlibreg_get_file(it, name, &bytes, &length) == RLIBREG_REOPEN && !bytes && !length);
    WANT(rlibreg_get_digest(it, name, digest) == RLIBREG_REOPEN && !digest[0]);
    WANT(rlibreg_get_info(it, &information) == RLIBREG_REOPEN);
    WANT(rlibreg_check_libraries(it, &findings) == RLIBREG_REOPEN && !findings.findings);
    WANT(get_executable(it, 0, &bytes, &length) == RLIBREG_REOPEN && !bytes && !length);
    WANT(get_bindings(it, 0, &text, &length) == RLIBREG_REOPEN && !text && !length);
}

static int is_of_the_system(uint32_t status) {
    return status == RLIBREG_SYSTEM || status == RLIBREG_DEVICE;
}

/* Makes a change, from the opening of the disk to its closing. Returns its outcome. */
static struct outcome attempt(const struct change *change) {
    struct outcome it = { 0 };
    rlibreg *registry = rlibreg_create();
    WANT(registry);
    if (!change->opens) it.opened = rlibreg_open(registry, DISK, RLIBREG_READ_WRITE);
    it.status = it.opened ? it.opened : change->make(registry);
    it.why = errno;
    WANT(rlibreg_last_answer(registry)->status == it.status);
    WANT(rlibreg_errno(registry) == (is_of_the_system(it.status) ? it.why : 0));
    if (it.status == RLIBREG_SYSTEM) WANT(!rlibreg_text(registry)[0]);
    if (it.status == RLIBREG_DEVICE) {
        WANT(!strcmp(rlibreg_text(registry), "refused S1 Device\n"));
        want_reopen(registry, change);
    }
    rlibreg_close(registry);
    return it;
}

/* Makes a change again, which may have been made before. */
static void make_again(const struct change *change, int was_made) {
    uint32_t status = attempt(change).status;
    WANT(!status ||
         (was_made && (status == RLIBREG_ALREADY_INSTALLED || status == RLIBREG_NOT_INSTALLED ||
                       status == RLIBREG_ALREADY_FORMATTED)));
    WANT(!strcmp(state(), change->after));
}

/* ---- Calls of the system that fail */

static int has_failed(const char *word) {
    return !strcmp(watched.failed, word);
}

/* Returns whether the outcome fits the call that failed. */
static int is_right(const struct change *change, const struct outcome *it) {
    if (has_failed("attributes") || has_failed("past") || has_failed("unlock") ||
        has_failed("system") || has_failed("mark-changes") || has_failed("unmark"))
        return !it->status; /* the change goes on without the call */
    if (has_failed("flags") && !it->status) return 1; /* flags of a stream */
    if (change->opens) /* making.c checks each of these calls in detail */
        return !it->status || ((it->status == RLIBREG_SYSTEM || it->status == RLIBREG_DEVICE) &&
                               (it->why == EIO || it->why == EAGAIN));
    if (has_failed("stat")) /* the path is opened again, or is reported as the name of another
                             * file */
        return !it->status || (it->why == EIO && it->status == RLIBREG_DEVICE && !it->opened);
    if (has_failed("fstat") && it->status == RLIBREG_DEVICE) /* of the disk, to compare it with
                                                              * its path */
        return it->why == EIO && !it->opened;
    if (has_failed("fstat") || has_failed("flags")) /* of the disk, or of a stream */
        return it->why == EIO && it->status == RLIBREG_SYSTEM;
    return it->why == EIO && it->status == (it->opened ? RLIBREG_SYSTEM : RLIBREG_DEVICE);
}

static long try_calls(const struct change *change) {
    for (long n = 0;; n++) {
        change->prepare();
        watch();
        watched.first = n;
        watched.why = EIO;
        struct outcome it = attempt(change);
        unwatch();
        int is_new = !strcmp(state(), change->after), is_old = !strcmp(state(), change->before);
        WANT(is_new || (is_old && it.status));
        if (it.status == RLIBREG_SYSTEM) WANT(is_old);
        if (n >= watched.calls) return n;
        WANT(is_right(change, &it));
        make_again(change, is_new);
    }
}

static void try_short_writes(const struct change *change) {
    change->prepare();
    watch();
    watched.is_short = 1;
    struct outcome it = attempt(change);
    unwatch();
    WANT(!it.status || (change->opens && it.why == ENOSPC)); /* the first write to a new disk is
                                                              * whole */
    WANT(!strcmp(state(), it.status ? change->before : change->after));
}

static void try_ends(const struct change *change, long calls) {
    for (long n = 0; n < calls; n++) {
        int status;
        change->prepare();
        fflush(stdout);
        pid_t child = fork();
        WANT(child >= 0);
        if (!child) {
            watch();
            watched.end = n;
            attempt(change);
            _exit(1);
        }
        WANT(waitpid(child, &status, 0) == child && WIFEXITED(status) && !WEXITSTATUS(status));
        int is_new = !strcmp(state(), change->after);
        WANT(is_new || !strcmp(state(), change->before));
        make_again(change, is_new);
    }
}

/* ---- Memory */

enum { LOOKS = 9 };

/* Reads the disk by call number `number`. Returns its status. The function is long because each
 * call has a result of its own type. */
static uint32_t look_by(rlibreg *it, int number) {
    uint32_t status;
    rlibreg_listing listing;
    rlibreg_image image;
    rlibreg_information information;
    rlibreg_findings findings;
    uint8_t digest[RLIBREG_DIGEST_BYTES];
    void *bytes;
    char *text;
    size_t length;
    switch (number) {
    case 0:
        status = rlibreg_get_listing(it, &listing);
        rlibreg_listing_free(&listing);
        return status;
    case 1:
        status = rlibreg_bind_program(it, program.bytes, program.length, 0x10000, &image);
        rlibreg_image_free(&image);
        return status;
    case 2:
        status = rlibreg_get_file(it, name, &bytes, &length);
        free(bytes);
        return status;
    case 3:
        status = rlibreg_check_libraries(it, &findings);
        rlibreg_findings_free(&findings);
        return status;
    case 4:
        return rlibreg_get_digest(it, name, digest);
    case 5:
        status = get_bindings(it, 0x10000, &text, &length);
        free(text);
        return status;
    case 6:
        status = get_executable(it, 0x10000, &bytes, &length);
        free(bytes);
        return status;
    case 7:
        status = preview_bind(it, 0x10000, &image);
        rlibreg_image_free(&image);
        return status;
    }
    return rlibreg_get_info(it, &information);
}

/* Reads the disk by each call. Returns the first status that differs from the one without a fault,
 * or RLIBREG_DONE. */
static uint32_t look(rlibreg *it, const uint32_t usual[LOOKS]) {
    for (int i = 0; i < LOOKS; i++) {
        uint32_t status = look_by(it, i);
        if (status != usual[i]) return status;
    }
    return RLIBREG_DONE;
}

static void find_usual(const struct change *change, uint32_t usual[LOOKS]) {
    rlibreg *it = rlibreg_create();
    change->prepare();
    WANT(it && !rlibreg_open(it, DISK, 0));
    for (int i = 0; i < LOOKS; i++) usual[i] = look_by(it, i);
    rlibreg_close(it);
}

/* Makes each growth of memory fail, from the creation of the struct on. Checks that nothing was
 * changed, and that later calls succeed. */
static long try_memory(const struct change *change) {
    uint32_t usual[LOOKS] = { 0 };
    if (!change->opens) find_usual(change, usual);
    for (long n = 0;; n++) {
        change->prepare();
        growths = n;
        rlibreg *it = rlibreg_create();
        if (!it) continue;
        if (!change->opens) WANT(!rlibreg_open(it, DISK, RLIBREG_READ_WRITE));
        uint32_t status = change->opens ? 0 : look(it, usual);
        if (!status) status = change->make(it);
        int has_failed = growths < 0;
        growths = -1;
        WANT(status == RLIBREG_OUT_OF_MEMORY || !status);
        WANT(has_failed || !status);
        if (status) {
            WANT(!strcmp(rlibreg_text(it), "refused S11 OutOfMemory\n"));
            WANT(!strcmp(names_here(), strcmp(change->before, "none") ? "disk " : ""));
            WANT(!change->make(it));
        }
        rlibreg_close(it);
        WANT(!strcmp(state(), change->after));
        if (!has_failed) return n;
    }
}

/* ---- Wrong use of a struct */

/* Makes calls on a struct that has no file. */
static void try_without_file(rlibreg *it) {
    char *text;
    rlibreg_listing listing;
    rlibreg_image image;
    rlibreg_information information;
    rlibreg_findings findings;
    uint8_t digest[RLIBREG_DIGEST_BYTES] = { 0 };
    void *bytes;
    size_t length;
    WANT(!rlibreg_text(it)[0] && rlibreg_last_answer(it)->status == 0);
    WANT(rlibreg_get_listing(it, &listing) == RLIBREG_BAD_GEOMETRY);
    WANT(!strcmp(rlibreg_text(it), "refused S6 BadGeometry\n"));
    WANT(rlibreg_bind_program(it, program.bytes, program.length, 0, &image) ==
         RLIBREG_BAD_GEOMETRY);
    WANT(rlibreg_get_file(it, name, &bytes, &length) == RLIBREG_BAD_GEOMETRY && !bytes);
    WANT(rlibreg_get_digest(it, name, digest) == RLIBREG_BAD_GEOMETRY && !digest[0]);
    WANT(rlibreg_get_info(it, &information) == RLIBREG_BAD_GEOMETRY);
    WANT(rlibreg_check_libraries(it, &findings) == RLIBREG_BAD_GEOMETRY && !findings.findings);
    WANT(get_executable(it, 0, &bytes, &length) == RLIBREG_BAD_GEOMETRY && !bytes && !length);
    WANT(get_bindings(it, 0, &text, &length) == RLIBREG_BAD_GEOMETRY && !text && !length);
    WANT(preview_bind(it, 0, &image) == RLIBREG_BAD_GEOMETRY && !image.bytes);
    WANT(make_install(it) == RLIBREG_READ_ONLY && make_update(it) == RLIBREG_READ_ONLY);
    WANT(rlibreg_format(it, DISK, 7, 0) == RLIBREG_BAD_ARGUMENT);
    WANT(rlibreg_format(it, DISK, 4194305, 0) == RLIBREG_BAD_ARGUMENT);
    WANT(make_format(it) == RLIBREG_ALREADY_FORMATTED);
    WANT(rlibreg_open(it, "/", 0) == RLIBREG_SYSTEM && errno == EINVAL);
    WANT(rlibreg_open(it, "/none/none", 0) == RLIBREG_SYSTEM && errno == ENOENT);
    WANT(rlibreg_format(it, "/none/none", 128, 0) == RLIBREG_SYSTEM && errno == ENOENT);
    rlibreg_image_free(&image);
}

/* Makes changes of a disk that is open only for reading. */
static void try_read_only(rlibreg *it) {
    rlibreg_listing listing;
    WANT(!rlibreg_open(it, DISK, 0) && !rlibreg_text(it)[0]);
    WANT(rlibreg_open(it, DISK, 0) == RLIBREG_BAD_ARGUMENT);
    WANT(make_format(it) == RLIBREG_BAD_ARGUMENT);
    WANT(make_install(it) == RLIBREG_READ_ONLY);
    WANT(!rlibreg_text(it)[0] && rlibreg_last_answer(it)->status == RLIBREG_READ_ONLY);
    WANT(rlibreg_upgrade(it) == RLIBREG_READ_ONLY && make_remove(it) == RLIBREG_READ_ONLY);
    WANT(rlibreg_preload(it, NULL, 0) == RLIBREG_READ_ONLY);
    WANT(make_update(it) == RLIBREG_READ_ONLY && rlibreg_last_answer(it)->count == 0);
    WANT(!rlibreg_get_listing(it, &listing) && listing.libraries == 0);
    rlibreg_listing_free(&listing);
    rlibreg_listing_free(&listing);
}

static void try_misuse(void) {
    leave_empty();
    rlibreg *it = rlibreg_create();
    try_without_file(it);
    try_read_only(it);
    rlibreg_close(it);
    rlibreg_close(NULL);
    WANT(!strcmp(state(), "end\n"));
}

/* ---- */

static void find_states(struct change *change) {
    change->prepare();
    snprintf(change->before, sizeof change->before, "%s", state());
    WANT(!attempt(change).status);
    snprintf(change->after, sizeof change->after, "%s", state());
    WANT(strcmp(change->before, change->after));
}

int main(int argc, char **argv) {
    WANT(argc == 6);
    read_file(&library, argv[1]);
    read_file(&other, argv[2]);
    read_file(&program, argv[3]);
    name = argv[4];
    read_file(&old, argv[5]);
    WANT(library.length != other.length);
    fill_update();
    try_misuse();
    for (size_t i = 0; i < sizeof changes / sizeof *changes; i++) {
        struct change *change = &changes[i];
        find_states(change);
        long calls = try_calls(change);
        try_short_writes(change);
        try_ends(change, calls);
        long memory = try_memory(change);
        WANT(calls > 12 && memory > (change->opens ? 4 : 20));
        printf("faults: %s: each of %ld calls failed, and the process ended at each; each of %ld "
               "growths failed\n",
               change->what, calls, memory);
    }
    unlink(DISK);
    return 0;
}

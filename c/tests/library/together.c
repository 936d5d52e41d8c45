/* together LIBRARY OTHER LONG plans updates over bytes, and carries them out. LIBRARY and OTHER
 * have the SONAME `b`, and LONG the SONAME `a`. */
#include "rlibreg.h"

#include <stdio.h>
#include <stdlib.h>
#include <string.h>

enum { SECTOR = 512, SECTORS = 40, ROOM = 1 << 16, MOST = 8, GUARD = 64, GUARDED = 0xa5 };

#define WANT(what)                                                                                 \
    do {                                                                                           \
        if (!(what)) {                                                                             \
            fprintf(stderr, "together: line %d: not so: %s\n", __LINE__, #what);                   \
            exit(1);                                                                               \
        }                                                                                          \
    } while (0)

/* ---- A disk, and what it holds */

static uint8_t disk[SECTORS * SECTOR], out[ROOM];
static char text[ROOM];
static rlibreg_answer answer;

static void carry_out(void) {
    for (uint64_t at = 0; at < answer.bytes; at += 4) {
        uint32_t n = out[at] | (uint32_t)out[at + 1] << 8 | (uint32_t)out[at + 2] << 16 |
                     (uint32_t)out[at + 3] << 24;
        if (n == RLIBREG_SYNC) continue;
        WANT(n < SECTORS);
        memcpy(disk + (size_t)n * SECTOR, out + at + 4, SECTOR);
        at += SECTOR;
    }
}

static void want_listing(uint64_t generation, const char *wanted) {
    static rlibreg_entry entries[MOST];
    static char names[ROOM], said[ROOM];
    rlibreg_answer listed;
    WANT(!rlibreg_list(disk, sizeof disk, entries, MOST, names, ROOM, said, ROOM, &listed));
    WANT(listed.generation == generation);
    WANT(listed.text == strlen(wanted) && !memcmp(said, wanted, listed.text));
}

/* ---- An update */

static uint8_t bytes[ROOM];
static size_t length;
static rlibreg_change changes[MOST];
static size_t count;

static void begin(void) {
    length = count = 0;
}

static void add(uint64_t kind, const void *own, size_t own_length) {
    WANT(count < MOST && length + own_length <= ROOM);
    changes[count++] = (rlibreg_change){ kind, length, own_length };
    memcpy(bytes + length, own, own_length);
    length += own_length;
}

static uint32_t ask(size_t room) {
    return rlibreg_plan_update(disk, sizeof disk, changes, count, bytes, length, out, room, text,
                               ROOM, &answer);
}

static void want_text(const char *wanted) {
    WANT(answer.text == strlen(wanted) && !memcmp(text, wanted, answer.text));
}

/* Checks that the update is planned, in a buffer of its size and in no smaller one. Carries it
 * out. */
static void want_done(uint64_t steps) {
    WANT(!ask(ROOM) && answer.status == 0 && answer.count == steps);
    uint64_t whole = answer.bytes;
    memset(out, GUARDED, sizeof out);
    WANT(ask(whole - 1) == RLIBREG_BUFFER_TOO_SMALL);
    WANT(answer.count == steps && answer.bytes == whole);
    WANT(answer.text == 0 && out[whole - 1] == GUARDED);
    WANT(!ask(whole) && answer.bytes == whole);
    for (size_t i = 0; i < GUARD; i++) WANT(out[whole + i] == GUARDED);
    want_text("ok\n");
    carry_out();
}

/* Checks that the change after the first `before` changes is refused with `status` and `line`. */
static void want_refused(uint32_t status, uint64_t before, const char *line) {
    memset(out, GUARDED, sizeof out);
    WANT(ask(ROOM) == status && answer.status == status && answer.count == before);
    WANT(answer.bytes == 0 && answer.preloads == 0 && answer.generation == 0);
    WANT(answer.file_refusal == (status == RLIBREG_BAD_FILE ? 1 : 0));
    want_text(line);
    for (size_t i = 0; i < sizeof out; i++) WANT(out[i] == GUARDED);
}

/* Adds a malformed change at the end, and checks that the update is refused for its arguments. */
static void want_bad(uint64_t kind, uint64_t from, uint64_t own_length) {
    changes[count++] = (rlibreg_change){ kind, from, own_length };
    memset(out, GUARDED, sizeof out);
    WANT(ask(ROOM) == RLIBREG_BAD_ARGUMENT && answer.status == RLIBREG_BAD_ARGUMENT);
    WANT(answer.count == 0 && answer.bytes == 0 && answer.text == 0 && out[0] == GUARDED);
    count--;
}

/* ---- */

struct file {
    uint8_t bytes[ROOM];
    size_t length;
};
static struct file library, other, longer;

static void read_file(struct file *it, const char *path) {
    FILE *file = fopen(path, "rb");
    WANT(file && (it->length = fread(it->bytes, 1, ROOM, file)));
    WANT(it->length < ROOM && !fclose(file));
}

static void add_file(uint64_t kind, const struct file *file) {
    add(kind, file->bytes, file->length);
}

static size_t sectors_of(const struct file *file) {
    return (file->length + SECTOR - 1) / SECTOR;
}

/* Makes changes together. Besides the sectors of files and one for each entry, a plan has the
 * catalogue, the root, and a sync before, between and after them. */
static void try_done(void) {
    char wanted[128];
    begin();
    want_done(1); /* a plan without a change is a sync */
    want_listing(0, "end\n");
    add_file(RLIBREG_INSTALL, &library);
    add_file(RLIBREG_INSTALL, &longer);
    add(RLIBREG_PRELOAD, "a\0b", 4);
    want_done(1 + sectors_of(&library) + 1 + sectors_of(&longer) + 1 + 4);
    snprintf(wanted, sizeof wanted, "library b %zu\nlibrary a %zu\npreload a\npreload b\nend\n",
             library.length, longer.length);
    want_listing(1, wanted);
    /* the library that is removed was a preload before the update, and its place is used again */
    begin();
    add(RLIBREG_PRELOAD, "a", 2);
    add(RLIBREG_REMOVE, "b", 1);
    add_file(RLIBREG_INSTALL, &other);
    want_done(1 + sectors_of(&other) + 1 + 4);
    snprintf(wanted, sizeof wanted, "library a %zu\nlibrary b %zu\npreload a\nend\n", longer.length,
             other.length);
    want_listing(2, wanted);
    /* a library that is installed and removed is a change all the same */
    begin();
    add(RLIBREG_REMOVE, "b", 1);
    add_file(RLIBREG_INSTALL, &library);
    add_file(RLIBREG_REPLACE, &other);
    add(RLIBREG_REMOVE, "b", 1);
    add(RLIBREG_PRELOAD, "", 0);
    WANT(!ask(ROOM));
    carry_out();
    snprintf(wanted, sizeof wanted, "library a %zu\nend\n", longer.length);
    want_listing(3, wanted);
    /* only preloads: the root, and a sync before it and after it */
    begin();
    add(RLIBREG_PRELOAD, "a", 2);
    want_done(3);
}

/* Tries a refusal of each change of an update. The disk has the library `a`, which is a preload. */
static void try_refusals(void) {
    begin();
    add(RLIBREG_REMOVE, "a", 1);
    want_refused(RLIBREG_IN_PRELOADS, 0, "refused C4 InPreloads\n");
    begin();
    add_file(RLIBREG_INSTALL, &library);
    add_file(RLIBREG_INSTALL, &other);
    add(RLIBREG_REMOVE, "b", 1);
    want_refused(RLIBREG_ALREADY_INSTALLED, 1, "refused C2 AlreadyInstalled\n");
    begin();
    add_file(RLIBREG_INSTALL, &library);
    add(RLIBREG_REMOVE, "b", 1);
    add_file(RLIBREG_REPLACE, &other);
    want_refused(RLIBREG_NOT_INSTALLED, 2, "refused C3 NotInstalled\n");
    begin();
    add_file(RLIBREG_INSTALL, &library);
    add(RLIBREG_PRELOAD, "b", 2);
    add(RLIBREG_PRELOAD, "b\0b", 4);
    want_refused(RLIBREG_REPEATED_PRELOAD, 2, "refused C5 RepeatedPreload\n");
    begin();
    add_file(RLIBREG_INSTALL, &library);
    add(RLIBREG_INSTALL, "", 0);
    want_refused(RLIBREG_BAD_FILE, 1, "refused C1 E1 TooShort\n");
}

static void try_bad_arguments(void) {
    begin();
    add(RLIBREG_REMOVE, "none", 4); /* this change would be refused */
    want_bad(0, 0, 1);
    want_bad(5, 0, 1);
    want_bad(UINT64_MAX, 0, 1);
    want_bad((uint64_t)1 << 32 | RLIBREG_REMOVE, 0, 1);
    want_bad(RLIBREG_REMOVE, 0, length + 1);
    want_bad(RLIBREG_REMOVE, length, 1);
    want_bad(RLIBREG_REMOVE, length + 1, 0);
    want_bad(RLIBREG_INSTALL, UINT64_MAX, 2);
    want_bad(RLIBREG_REPLACE, 2, UINT64_MAX);
    want_bad(RLIBREG_PRELOAD, 0, 4);
    want_refused(RLIBREG_NOT_INSTALLED, 0, "refused C3 NotInstalled\n");
}

int main(int argc, char **argv) {
    WANT(argc == 4);
    read_file(&library, argv[1]);
    read_file(&other, argv[2]);
    read_file(&longer, argv[3]);
    begin();
    want_refused(RLIBREG_NOT_FORMATTED, 0, "refused S3 NotFormatted\n");
    WANT(!rlibreg_plan_format(disk, sizeof disk, out, ROOM, text, ROOM, &answer));
    carry_out();
    try_done();
    try_refusals();
    try_bad_arguments();
    return 0;
}

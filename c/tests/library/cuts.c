/* cuts PROGRAM NAME DISK BASE_PROGRAM CHANGE [FILE|NAME].. cuts the plan of a change at each
 * prefix, and opens every disk that a power cut may leave at that point, by the library and by the
 * program `rlibreg`. The CHANGE `update` is followed by several changes, with a word `,` between
 * each two.
 *
 * Each sector that was written since the last sync has its old content, or any content that was
 * written to it since then. A disk that a cut leaves has to be, as a whole, the disk from before
 * the change or the disk after it. The test judges this by the listing, with the generation, and by
 * the image of a program that is bound against the disk. `rlibreg` has to print for the disk what
 * it prints for one of these two. As a control, the test tries the plan without the sync before its
 * last write: then some disk has to be neither of the two. */
#define _GNU_SOURCE
#include "rlibreg.h"

#include <inttypes.h>
#include <stdio.h>
#include <stdlib.h>
#include <string.h>

enum { SECTOR = 512, ROOM = 1 << 20, MOST_STEPS = 64, MOST_DISKS = 4096 };

static void fail(const char *what) {
    fprintf(stderr, "cuts: %s\n", what);
    exit(1);
}

static uint8_t *read_file(const char *path, size_t *length) {
    FILE *file = fopen(path, "rb");
    if (!file || fseek(file, 0, SEEK_END)) fail(path);
    *length = (size_t)ftell(file);
    rewind(file);
    uint8_t *bytes = malloc(*length + 1);
    if (!bytes || fread(bytes, 1, *length, file) != *length) fail(path);
    fclose(file);
    return bytes;
}

/* ---- What a disk holds */

struct files {
    const char *rlibreg; /* path of the program `rlibreg` */
    const char *left;    /* path for a disk that is left */
    const char *bound;   /* path of a program that is bound */
    uint8_t *program;    /* bytes of that program */
    size_t program_length;
    size_t length; /* length of the disk in bytes */
};

struct seen {
    uint32_t listed, bound; /* statuses */
    uint64_t generation;
    size_t length; /* length of the text, and of the image's bytes after it */
    uint8_t *bytes;
    size_t printed_length; /* length of the program's output */
    char *printed;
};

static struct seen look(const struct files *it, const uint8_t *disk) {
    static rlibreg_entry entries[64];
    static rlibreg_object objects[64];
    static rlibreg_segment segments[64];
    static char names[ROOM], text[ROOM];
    static uint8_t bytes[ROOM];
    rlibreg_answer answer;
    struct seen seen = { 0 };
    seen.listed = rlibreg_list(disk, it->length, entries, 64, names, ROOM, text, ROOM, &answer);
    seen.generation = answer.generation;
    size_t listing = answer.text;
    seen.bound =
        rlibreg_bind(disk, it->length, it->program, it->program_length, 0x10000, objects, 64,
                     segments, 64, bytes, ROOM, text + listing, ROOM - listing, &answer);
    size_t image = seen.bound ? 0 : answer.bytes, refusal = answer.text;
    seen.length = listing + refusal + image;
    seen.bytes = malloc(seen.length + 1);
    memcpy(seen.bytes, text, listing + refusal);
    memcpy(seen.bytes + listing + refusal, bytes, image);
    return seen;
}

static int are_same(const struct seen *a, const struct seen *b) {
    return a->listed == b->listed && a->bound == b->bound && a->generation == b->generation &&
           a->length == b->length && !memcmp(a->bytes, b->bytes, a->length);
}

/* Reads the output of `rlibreg` for a disk: its listing, and the image or the refusal of a bind. */
static void run_program(const struct files *it, const uint8_t *disk, struct seen *seen) {
    char command[4096];
    FILE *file = fopen(it->left, "wb");
    if (!file || fwrite(disk, 1, it->length, file) != it->length || fclose(file)) fail(it->left);
    snprintf(command, sizeof command, "'%s' list '%s'; '%s' bind '%s' '%s' 0x10000", it->rlibreg,
             it->left, it->rlibreg, it->left, it->bound);
    FILE *pipe = popen(command, "r");
    if (!pipe) fail("popen");
    seen->printed = malloc(ROOM);
    seen->printed_length = fread(seen->printed, 1, ROOM, pipe);
    pclose(pipe);
}

/* ---- Steps */

struct steps {
    size_t count;
    uint32_t sector[MOST_STEPS];
    const uint8_t *content[MOST_STEPS]; /* null for a sync */
};

static struct steps steps_of(const uint8_t *plan, const rlibreg_answer *answer) {
    struct steps it = { 0 };
    for (size_t at = 0; at < answer->bytes; it.count++) {
        const uint8_t *n = plan + at;
        if (it.count == MOST_STEPS) fail("a plan of too many steps");
        uint32_t number = n[0] | (uint32_t)n[1] << 8 | (uint32_t)n[2] << 16 | (uint32_t)n[3] << 24;
        it.sector[it.count] = number;
        it.content[it.count] = number == RLIBREG_SYNC ? NULL : plan + at + 4;
        at += number == RLIBREG_SYNC ? 4 : 4 + SECTOR;
    }
    if (it.count != answer->count) fail("the count of the steps");
    return it;
}

static void write_step(uint8_t *disk, const struct steps *it, size_t i) {
    memcpy(disk + (size_t)it->sector[i] * SECTOR, it->content[i], SECTOR);
}

/* ---- Every mixture */

struct cuts {
    const struct files *files;
    const struct steps *steps;
    struct seen before, after;
    uint8_t *tried[MOST_DISKS];
    size_t count, old, new, neither;
    int is_control;
};

static int was_tried(struct cuts *it, const uint8_t *disk) {
    for (size_t i = 0; i < it->count; i++)
        if (!memcmp(it->tried[i], disk, it->files->length)) return 1;
    if (it->count == MOST_DISKS) fail("too many disks");
    it->tried[it->count] = malloc(it->files->length);
    memcpy(it->tried[it->count++], disk, it->files->length);
    return 0;
}

static void try_disk(struct cuts *it, const uint8_t *disk) {
    if (was_tried(it, disk)) return;
    struct seen seen = look(it->files, disk);
    int is_old = are_same(&seen, &it->before), is_new = are_same(&seen, &it->after);
    free(seen.bytes);
    it->old += (size_t)is_old;
    it->new += (size_t)(is_new && !is_old);
    it->neither += !is_old && !is_new;
    if (it->is_control) return;
    if (!is_old && !is_new) fail("a disk is left that is neither the old one nor the new one");
    const struct seen *one = is_old ? &it->before : &it->after;
    run_program(it->files, disk, &seen);
    if (seen.printed_length != one->printed_length ||
        memcmp(seen.printed, one->printed, one->printed_length))
        fail("the program prints something else of a disk");
    free(seen.printed);
}

/* Tries the disks that the steps from `from` up to `to` may leave. Each sector that these steps
 * write has its old content, or any content that these steps write to it. */
static void try_mixtures(struct cuts *it, uint8_t *disk, size_t from, size_t to) {
    while (from < to && !it->steps->content[from]) from++;
    if (from == to) {
        try_disk(it, disk);
        return;
    }
    uint8_t kept[SECTOR], *sector = disk + (size_t)it->steps->sector[from] * SECTOR;
    memcpy(kept, sector, SECTOR);
    try_mixtures(it, disk, from + 1, to);
    write_step(disk, it->steps, from);
    try_mixtures(it, disk, from + 1, to);
    memcpy(sector, kept, SECTOR);
}

/* Cuts the steps at each prefix, and tries all disks that the cuts may leave. */
static void try_prefixes(struct cuts *it, const uint8_t *disk) {
    uint8_t *synced = malloc(it->files->length);
    memcpy(synced, disk, it->files->length);
    size_t last_sync = 0;
    for (size_t end = 0; end <= it->steps->count; end++) {
        try_mixtures(it, synced, last_sync, end);
        if (end == it->steps->count || it->steps->content[end]) continue;
        for (size_t i = last_sync; i < end; i++)
            if (it->steps->content[i]) write_step(synced, it->steps, i);
        last_sync = end + 1;
    }
    /* after all steps one disk is left, which is the new one */
    struct seen seen = look(it->files, synced);
    if (last_sync != it->steps->count || !are_same(&seen, &it->after)) fail("the end isn't synced");
    free(seen.bytes);
    free(synced);
}

static void free_tried(struct cuts *it) {
    for (size_t i = 0; i < it->count; i++) free(it->tried[i]);
    it->count = it->old = it->new = it->neither = 0;
}

/* Returns the steps without the sync before the last write. Returns no steps if nothing is written
 * before that sync. */
static struct steps without_sync(const struct steps *steps) {
    struct steps it = *steps;
    size_t last = it.count, writes = 0;
    while (last && !it.content[last - 1]) last--; /* the last syncs */
    while (last && it.content[last - 1]) last--;  /* the last writes */
    for (size_t i = 0; i < last; i++) writes += it.content[i] != NULL;
    if (!last || !writes) return (struct steps){ 0 };
    for (size_t i = last - 1; i + 1 < it.count; i++) {
        it.sector[i] = it.sector[i + 1];
        it.content[i] = it.content[i + 1];
    }
    it.count--;
    return it;
}

/* ---- */

/* Plans an update in one plan: for each change its kind, and its words up to a comma. */
static uint32_t plan_update(const uint8_t *disk, size_t length, char **words, uint8_t *plan,
                            char *text, rlibreg_answer *answer) {
    static uint8_t bytes[ROOM];
    static const char *const kinds[] = { "", "install", "replace", "remove", "preload" };
    rlibreg_change changes[16];
    size_t count = 0, at = 0;
    for (; *words; words++) {
        rlibreg_change *it = &changes[count++];
        *it = (rlibreg_change){ 0, at, 0 };
        for (size_t kind = 1; kind <= 4; kind++)
            if (!strcmp(*words, kinds[kind])) it->kind = kind;
        while (*++words && strcmp(*words, ",")) {
            uint8_t *own = (uint8_t *)*words;
            size_t own_length = strlen(*words) + (it->kind == RLIBREG_PRELOAD);
            int is_file = it->kind == RLIBREG_INSTALL || it->kind == RLIBREG_REPLACE;
            if (is_file) own = read_file(*words, &own_length);
            memcpy(bytes + at, own, own_length);
            at += own_length;
            if (is_file) free(own);
        }
        it->length = at - it->offset;
        if (!*words) break;
    }
    return rlibreg_plan_update(disk, length, changes, count, bytes, at, plan, ROOM, text, ROOM,
                               answer);
}

static uint32_t plan_change(const uint8_t *disk, size_t length, char **words, uint8_t *plan,
                            char *text, rlibreg_answer *answer) {
    const char *what = words[0];
    uint32_t status;
    if (!strcmp(what, "format"))
        return rlibreg_plan_format(disk, length, plan, ROOM, text, ROOM, answer);
    if (!strcmp(what, "upgrade"))
        return rlibreg_plan_upgrade(disk, length, plan, ROOM, text, ROOM, answer);
    if (!strcmp(what, "update"))
        return plan_update(disk, length, words + 1, plan, text, answer);
    if (!strcmp(what, "remove"))
        return rlibreg_plan_remove(disk, length, words[1], strlen(words[1]), plan, ROOM, text, ROOM,
                                   answer);
    if (!strcmp(what, "preload")) {
        char names[ROOM / 16];
        size_t at = 0;
        for (size_t i = 1; words[i]; i++) at += (size_t)sprintf(names + at, "%s", words[i]) + 1;
        return rlibreg_plan_preload(disk, length, names, at, plan, ROOM, text, ROOM, answer);
    }
    size_t file_length;
    uint8_t *file = read_file(words[1], &file_length);
    if (!strcmp(what, "install"))
        status =
            rlibreg_plan_install(disk, length, file, file_length, plan, ROOM, text, ROOM, answer);
    else
        status =
            rlibreg_plan_replace(disk, length, file, file_length, plan, ROOM, text, ROOM, answer);
    free(file);
    return status;
}

/* Cuts the plan without a sync, if there is such a plan: a disk then has neither registry. */
static void try_control(struct cuts *cuts, const struct steps *steps, const uint8_t *disk) {
    struct steps unsynced = without_sync(steps);
    if (!unsynced.count) return;
    cuts->steps = &unsynced;
    cuts->is_control = 1;
    try_prefixes(cuts, disk);
    printf("; without a sync %zu neither", cuts->neither);
    if (!cuts->neither) fail("the control isn't noticed");
    free_tried(cuts);
}

/* Returns the bytes of a disk after the steps. */
static uint8_t *disk_after(const struct steps *steps, const uint8_t *disk, size_t length) {
    uint8_t *whole = malloc(length);
    memcpy(whole, disk, length);
    for (size_t i = 0; i < steps->count; i++)
        if (steps->content[i]) write_step(whole, steps, i);
    return whole;
}

int main(int argc, char **argv) {
    static uint8_t plan[ROOM];
    static char text[ROOM];
    rlibreg_answer answer;
    if (argc < 6) fail("words");
    struct files files = { .rlibreg = argv[1], .left = argv[2], .bound = argv[4] };
    uint8_t *disk = read_file(argv[3], &files.length);
    files.program = read_file(argv[4], &files.program_length);
    if (plan_change(disk, files.length, argv + 5, plan, text, &answer)) {
        fprintf(stderr, "%.*s", (int)answer.text, text);
        fail("no plan");
    }
    struct steps steps = steps_of(plan, &answer);
    uint8_t *whole = disk_after(&steps, disk, files.length);
    struct cuts cuts = { .files = &files, .steps = &steps };
    cuts.before = look(&files, disk);
    cuts.after = look(&files, whole);
    run_program(&files, disk, &cuts.before);
    run_program(&files, whole, &cuts.after);
    if (are_same(&cuts.before, &cuts.after)) fail("nothing changes");
    try_prefixes(&cuts, disk);
    printf("%s: %zu steps, %zu disks: %zu old, %zu new", argv[5], steps.count, cuts.count, cuts.old,
           cuts.new);
    if (!cuts.old || !cuts.new) fail("one of the two is never left");
    free_tried(&cuts);
    try_control(&cuts, &steps, disk);
    puts("");
    free(cuts.before.bytes);
    free(cuts.before.printed);
    free(cuts.after.bytes);
    free(cuts.after.printed);
    free(whole);
    free(files.program);
    free(disk);
    return 0;
}

/* Keeps an image that was bound: makes its file without a name, writes the file once, and names
 * it. */
#define _GNU_SOURCE
#include "rlibreg_run_kept.h"

#include <errno.h>
#include <stdlib.h>
#include <string.h>
#include <sys/mman.h>
#include <sys/resource.h>
#include <sys/stat.h>
#include <unistd.h>

void look_at_disk(struct keeping *it, const struct program *program, const char *path, int disk) {
    if (!it->may_keep) return;
    it->may_keep = !key_of_disk(disk, &it->key) && is_settled(&it->key.disk);
    if (!it->may_keep) {
        say_more(it, "nothing is kept: the disk was changed just now, or tells too little");
        return;
    }
    it->is_for_all = it->is_for_all && may_all_read(path, disk) &&
                     may_all_read(program->path, program->fd);
    give_name(it, program);
}

void look_at_image(struct keeping *it, const struct program *program, int disk) {
    if (!it->may_keep || !is_compared(&it->key.disk)) return;
    it->may_keep = !take_sources(&it->sources, program, disk, &it->key);
    if (!it->may_keep) say_more(it, "nothing is kept: what was bound can't be read again");
}

/* ---- Pieces */

static struct piece *last_of(struct pieces *it) {
    return it->count ? &it->at[it->count - 1] : NULL;
}

/* Adds pages after all others. If they have the same kind and permissions as the pages of the last
 * piece, they become part of it. */
static void add_pages(struct pieces *it, uint64_t address, uint64_t length, int is_zero, int how) {
    struct piece *last = last_of(it);
    if (last && last->address + last->length == address && last->how == (uint64_t)how &&
        (last->from == 0) == is_zero) {
        last->length += length;
    } else if (it->count == MOST_PIECES) {
        it->is_too_many = 1;
    } else {
        it->at[it->count++] = (struct piece){ address, length, !is_zero, (uint64_t)how };
    }
}

static int is_zero_page(uint64_t address) {
    static const uint8_t zeros[PAGE];
    return !memcmp((const void *)address, zeros, PAGE);
}

/* Adds pages to the pieces. For a page that two segments share, this is called once for each of
 * them, the last time with the permissions of both. */
static void find_pieces(const struct part *part, uint64_t from, uint64_t to, int how) {
    struct pieces *it = part->context;
    struct piece *last = last_of(it);
    if (from >= to) return;
    if (last && last->address + last->length > from) last->length = from - last->address;
    if (last && !last->length) it->count--;
    for (uint64_t at = from; at < to; at += PAGE)
        add_pages(it, at, PAGE, is_zero_page(at), how);
}

/* Sets the offsets of the pages in the file, from `at` on. Returns the length of the file in
 * bytes. */
static uint64_t place_pieces(struct pieces *it, uint64_t at) {
    for (size_t i = 0; i < it->count; i++) {
        if (!it->at[i].from) continue;
        it->at[i].from = at;
        at += it->at[i].length;
    }
    return at;
}

/* ---- The beginning of a kept file */

static struct counts counts_of(const struct keeping *it, const struct program *program,
                               const struct pieces *pieces,
                               const struct stretches *stretches) {
    struct counts counts = { .pieces = pieces->count, .objects = program->image.object_count };
    counts.of_program = stretches->first;
    counts.of_disk = stretches->count - stretches->first;
    counts.others = stretches->others;
    counts.initializers = program->initializers.count;
    counts.finalizers = program->finalizers.count;
    for (uint64_t i = 1; i < counts.objects; i++)
        counts.names += program->image.objects[i].name_length + 1;
    if (it->key.program.kind == OF_BYTES) counts.program = program->length;
    return counts;
}

static void put_calls(uint64_t *to, const struct calls *calls) {
    if (calls->count) memcpy(to, calls->at, calls->count * sizeof *to);
}

static void put_objects(const struct program *program, const struct kept_file *file) {
    const rlibreg_image *image = &program->image;
    uint64_t at = 0;
    for (size_t i = 0; i < image->object_count; i++) {
        rlibreg_object *object = &file->objects[i];
        *object = image->objects[i];
        object->name = at;
        object->first_segment = object->segments = 0;
        if (!i) continue;
        memcpy(file->names + at, image->bytes + image->objects[i].name, object->name_length + 1);
        at += object->name_length + 1;
    }
}

/* Fills the parts of a beginning that follow its head. */
static void fill_beginning(const struct kept_file *file, const struct program *program,
                           const struct pieces *pieces, const struct stretches *stretches) {
    memcpy(file->pieces, pieces->at, pieces->count * sizeof *pieces->at);
    if (stretches->count)
        memcpy(file->stretches, stretches->at, stretches->count * sizeof *stretches->at);
    put_objects(program, file);
    put_calls(file->calls, &program->initializers);
    put_calls(file->calls + file->head->counts.initializers, &program->finalizers);
}

/* Makes the beginning of a file. Returns it, or null. The caller frees it. */
static void *make_beginning(const struct keeping *it, const struct program *program,
                            struct pieces *pieces, struct stretches *stretches, const char *disk) {
    struct head head = { .key = it->key };
    memcpy(head.form, kept_form, sizeof head.form);
    head.counts = counts_of(it, program, pieces, stretches);
    head.place = number_of_paths(it, program, disk);
    head.length = place_pieces(pieces, place_of_pages(&head.counts));
    place_stretches(stretches, place_of_others(&head.counts));
    void *beginning = is_head(&head, head.length) ? calloc(1, place_of_others(&head.counts)) : NULL;
    if (!beginning) return NULL;
    memcpy(beginning, &head, sizeof head);
    struct kept_file file = parts_of(beginning);
    fill_beginning(&file, program, pieces, stretches);
    file.head->check = check_of(file.head);
    if (is_whole(&file)) return beginning;
    free(beginning);
    return NULL;
}

/* ---- The file */

/* Returns whether this process may write a file of `length` bytes. If a process writes a longer
 * file than it may, a signal ends the process. */
static int may_be_so_long(uint64_t length) {
    struct rlimit limit;
    return !getrlimit(RLIMIT_FSIZE, &limit) && length <= limit.rlim_cur;
}

static void keep_file(struct keeping *it, const struct program *program, void *beginning) {
    struct kept_file file = parts_of(beginning);
    errno = EFBIG;
    if (!may_be_so_long(file.head->length)) return;
    drop_older(it, file.head);
    int fd = make_file(it);
    if (fd >= 0 && !write_kept(fd, it, program, &file)) {
        it->file = fd;
    } else if (fd >= 0) {
        int why = errno;
        close(fd);
        errno = why;
    }
}

/* Collects everything that is kept of an image, and makes the beginning of its file. Returns the
 * beginning, or null. The caller frees it. */
static void *describe(const struct keeping *it, const struct program *program, const char *disk) {
    struct pieces pieces = { .at = malloc(MOST_PIECES * sizeof *pieces.at) };
    struct stretches stretches = { 0 };
    void *beginning = NULL;
    if (pieces.at) each_pages(program, find_pieces, &pieces);
    if (it->key.program.kind == OF_BYTES) find_stretches_of_program(&stretches, program, &pieces);
    if (it->sources.copy) find_stretches_of_disk(&stretches, program, &it->sources, &pieces);
    if (pieces.at && !pieces.is_too_many && !stretches.has_failed)
        beginning = make_beginning(it, program, &pieces, &stretches, disk);
    free(pieces.at);
    free(stretches.at);
    return beginning;
}

void keep(struct keeping *it, const struct program *program, const char *disk) {
    if (!it->may_keep) return;
    errno = ENOMEM;
    it->beginning = describe(it, program, disk);
    if (it->beginning) keep_file(it, program, it->beginning);
    if (!it->file) say_error(it, errno);
    free_sources(&it->sources);
}

/* Maps pages from the file over those that only this process has. First maps the pages at another
 * address, to find out whether this succeeds. If it fails, the process keeps its own pages. */
static void share(const struct piece *it, int fd) {
    if (!it->from) return;
    void *map = mmap(NULL, it->length, (int)it->how, MAP_PRIVATE, fd, (off_t)it->from);
    if (map == MAP_FAILED) return;
    const int how = MREMAP_MAYMOVE | MREMAP_FIXED;
    if (mremap(map, it->length, it->length, how, (void *)it->address) == MAP_FAILED) fail("memory");
}

void name_kept(struct keeping *it) {
    if (it->file && name_file(it, it->file)) {
        say_error(it, errno);
    } else if (it->file) {
        say_more(it, "the image is kept");
        struct kept_file file = parts_of(it->beginning);
        for (uint64_t i = 0; i < file.head->counts.pieces; i++) share(&file.pieces[i], it->file);
    }
    if (it->file) close(it->file);
    free(it->beginning);
}

/* Copies the sectors that a bind reads, as docs/FORMATS.md describes them: the roots, the
 * catalogues, the entries, and the files of the libraries in load order. Copies all of them while
 * the disk is locked. The program is then bound again with the copy. So the image depends only on
 * the copied bytes, even if a process without the lock writes to the disk at the same time. */
#define _GNU_SOURCE
#include "rlibreg_run_kept.h"

#include <stdlib.h>
#include <string.h>
#include <sys/mman.h>
#include <unistd.h>

enum { SECTOR = 512 };

/* Offsets of the fields that are used here, and the maximum number of catalogues. */
enum { ROOT_GENERATION = 8, ROOT_COUNT = 56, ROOT_LIST = 64, MOST_CATALOGUES = 32 };
enum { CATALOGUE_COUNT = 4, CATALOGUE_LIST = 16, MOST_ENTRIES = 64 };
enum { ENTRY_LENGTH = 4, ENTRY_NAME_LENGTH = 8, ENTRY_COUNT = 10, ENTRY_NAME = 16, ENTRY_LIST = 256 };
enum { MOST_NAME = 240, MOST_EXTENTS = 32 };

/* Returns a number of `bytes` bytes, little endian. */
static uint64_t number_at(const uint8_t *at, int bytes) {
    uint64_t number = 0;
    while (bytes-- > 0) number = number << 8 | at[bytes];
    return number;
}

/* ---- Copying */

/* Copies bytes of the disk. Returns 0 or -1. A page of the copy becomes writable only when bytes
 * are copied to it. So the other pages take no memory, even if the system promises only memory that
 * it has. */
static int copy_bytes(struct sources *it, int disk, uint64_t at, uint64_t length) {
    uint64_t page = at / PAGE * PAGE, end = at + length;
    if (mprotect(it->copy + page, end - page, PROT_READ | PROT_WRITE)) return -1;
    while (at < end) {
        ssize_t count = pread(disk, it->copy + at, end - at, (off_t)at);
        if (count <= 0) return -1;
        at += (uint64_t)count;
    }
    return 0;
}

/* Copies bytes of the disk, and adds their extent to the list. Returns 0 or -1. */
static int take_bytes(struct sources *it, int disk, struct extent one) {
    if (one.at > it->length || one.length > it->length - one.at) return -1;
    if (it->count == it->room) {
        size_t room = 2 * it->room + 64;
        struct extent *larger = realloc(it->at, room * sizeof *larger);
        if (!larger) return -1;
        it->at = larger;
        it->room = room;
    }
    it->at[it->count++] = one;
    return copy_bytes(it, disk, one.at, one.length);
}

/* Copies sector number `number`. Returns its bytes, or null. */
static const uint8_t *take_sector(struct sources *it, int disk, uint64_t number) {
    struct extent one = { .at = number * SECTOR, .length = SECTOR };
    return take_bytes(it, disk, one) ? NULL : it->copy + one.at;
}

/* ---- The sectors that a bind reads */

/* Returns the number of the library of this name in the image, or 0. */
static size_t number_of(const struct program *program, const uint8_t *name, uint64_t length) {
    const rlibreg_image *image = &program->image;
    for (size_t i = 1; i < image->object_count; i++)
        if (image->objects[i].name_length == length &&
            !memcmp(image->bytes + image->objects[i].name, name, length))
            return i;
    return 0;
}

/* Copies the file of an entry, extent by extent. Returns 0 or -1. */
static int take_file(struct sources *it, int disk, const uint8_t *entry, size_t object) {
    uint64_t left = number_at(entry + ENTRY_LENGTH, 4), offset = 0;
    uint64_t extents = number_at(entry + ENTRY_COUNT, 2);
    if (extents > MOST_EXTENTS) return -1;
    for (const uint8_t *at = entry + ENTRY_LIST; extents-- > 0 && left; at += 8) {
        struct extent one = { number_at(at, 4) * SECTOR, number_at(at + 4, 4) * SECTOR, offset,
                              object };
        if (one.length > left) one.length = left;
        if (take_bytes(it, disk, one)) return -1;
        offset += one.length;
        left -= one.length;
    }
    return left ? -1 : 0;
}

/* Copies an entry, and its file if the image has it. Returns 0 or -1. */
static int take_entry(struct sources *it, int disk, const struct program *program, uint64_t number) {
    const uint8_t *entry = take_sector(it, disk, number);
    uint64_t length = entry ? number_at(entry + ENTRY_NAME_LENGTH, 2) : 0;
    if (!entry || length > MOST_NAME) return -1;
    size_t object = number_of(program, entry + ENTRY_NAME, length);
    return object ? take_file(it, disk, entry, object) : 0;
}

static int take_catalogue(struct sources *it, int disk, const struct program *program,
                          uint64_t number) {
    const uint8_t *catalogue = take_sector(it, disk, number);
    uint64_t entries = catalogue ? number_at(catalogue + CATALOGUE_COUNT, 2) : 0;
    if (!catalogue || entries > MOST_ENTRIES) return -1;
    for (uint64_t i = 0; i < entries; i++)
        if (take_entry(it, disk, program, number_at(catalogue + CATALOGUE_LIST + 4 * i, 4)))
            return -1;
    return 0;
}

/* Returns the current root, which is the one with the greater generation, or null if there is
 * none. */
static const uint8_t *root_of(const uint8_t *roots) {
    static const char magic[8] = { 'R', 'L', 'I', 'B', 'R', 'E', 'G', '2' };
    const uint8_t *found = NULL;
    for (const uint8_t *at = roots; at < roots + ROOTS; at += SECTOR)
        if (!memcmp(at, magic, sizeof magic) &&
            (!found || number_at(at + ROOT_GENERATION, 8) > number_at(found + ROOT_GENERATION, 8)))
            found = at;
    return found;
}

/* Copies everything that a bind reads. Returns 0 or -1. The roots of the disk have to be `roots`,
 * those of the key. */
static int take_all(struct sources *it, int disk, const struct program *program,
                    const uint8_t *roots) {
    if (it->length < ROOTS || copy_bytes(it, disk, 0, ROOTS) || memcmp(it->copy, roots, ROOTS))
        return -1;
    const uint8_t *root = root_of(it->copy);
    uint64_t catalogues = root ? number_at(root + ROOT_COUNT, 2) : 0;
    if (!root || catalogues > MOST_CATALOGUES) return -1;
    for (uint64_t i = 0; i < catalogues; i++)
        if (take_catalogue(it, disk, program, number_at(root + ROOT_LIST + 4 * i, 4))) return -1;
    return 0;
}

/* ---- The second bind */

/* Returns the number of bytes of an image: those of its segments, followed by its names. */
static size_t bytes_of(const rlibreg_image *image) {
    const rlibreg_object *last = &image->objects[image->object_count - 1];
    return last->name + last->name_length + 1;
}

/* Binds the program with a copy, into the buffers of `other`, which have room for an image like the
 * program's. Returns 0 if the two images are equal. */
static int bind_copy(const struct sources *it, const struct program *program,
                     const rlibreg_image *other) {
    const rlibreg_image *image = &program->image;
    char text[512];
    rlibreg_answer answer;
    size_t bytes = bytes_of(image), objects = image->object_count * sizeof *image->objects;
    return rlibreg_bind(it->copy, it->length, program->bytes, program->length, program->base,
                        other->objects, image->object_count, other->segments, image->count,
                        other->bytes, bytes, text, sizeof text, &answer) ||
           answer.bytes != bytes || answer.objects != image->object_count ||
           answer.count != image->count || memcmp(other->objects, image->objects, objects) ||
           memcmp(other->segments, image->segments, image->count * sizeof *image->segments) ||
           memcmp(other->bytes, image->bytes, bytes);
}

/* Returns whether the copy has all sources of the program's image. */
static int has_all(const struct sources *it, const struct program *program) {
    rlibreg_image other = { 0 };
    other.objects = malloc(program->image.object_count * sizeof *other.objects);
    other.segments = malloc((program->image.count + 1) * sizeof *other.segments);
    other.bytes = malloc(bytes_of(&program->image));
    int has = other.objects && other.segments && other.bytes && !bind_copy(it, program, &other);
    rlibreg_image_free(&other);
    return has;
}

/* Orders extents by their offsets on the disk. In this order, a start needs the fewest reads to
 * compare them. */
static int is_before(const void *one, const void *other) {
    const struct extent *a = one, *b = other;
    return (a->at > b->at) - (a->at < b->at);
}

int take_sources(struct sources *it, const struct program *program, int disk, const struct key *key) {
    const int kind = MAP_PRIVATE | MAP_ANONYMOUS | MAP_NORESERVE;
    void *copy = mmap(NULL, key->disk.length, PROT_READ, kind, -1, 0);
    if (copy == MAP_FAILED) return -1;
    *it = (struct sources){ .copy = copy, .length = key->disk.length };
    if (take_all(it, disk, program, key->roots) || !has_all(it, program)) {
        free_sources(it);
        return -1;
    }
    if (it->count) qsort(it->at, it->count, sizeof *it->at, is_before);
    return 0;
}

void free_sources(struct sources *it) {
    if (it->copy) munmap(it->copy, it->length);
    free(it->at);
    *it = (struct sources){ 0 };
}

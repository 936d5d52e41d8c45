/* Starts from a kept image. Maps its pages from its file without changes, so that processes share
 * the pages that none of them writes. */
#define _GNU_SOURCE
#include "rlibreg_run_kernel.h"
#include "rlibreg_run_kept.h"

#include <errno.h>
#include <fcntl.h>
#include <sys/mman.h>

/* Maximum length in bytes of a beginning that needs no map of its own. */
enum { USUAL = 8 << 10 };

void say_more(const struct keeping *it, const char *what) {
    if (it->says_more && it->say) it->say(it, what, 0);
}

void say_error(const struct keeping *it, int error) {
    if (it->says_more && it->say) it->say(it, NULL, error);
}

/* ---- The beginning of a kept file */

/* Allocates `length` bytes for the beginning of a kept file. The caller frees them with
 * free_beginning. Returns null if memory is refused. Most beginnings fit into a static buffer,
 * which needs no call. */
static void *take_room(uint64_t length) {
    static _Alignas(struct head) uint8_t usual[USUAL];
    const int how = PROT_READ | PROT_WRITE, kind = MAP_PRIVATE | MAP_ANONYMOUS;
    int64_t map = length > USUAL ? kernel_map(0, length, how, kind, -1, 0) : (int64_t)usual;
    return map < 0 ? NULL : (void *)map;
}

static void free_beginning(const struct kept_file *it) {
    uint64_t length = it->head ? place_of_others(&it->head->counts) : 0;
    if (length > USUAL) kernel_unmap((uint64_t)it->head, length);
}

static int read_beginning(int kept, uint64_t length, struct kept_file *file) {
    struct head head;
    int other = length < sizeof head ? IS_OTHER : read_exactly(kept, &head, sizeof head, 0);
    if (other || !is_head(&head, length)) return other ? other : IS_OTHER;
    uint64_t all = place_of_others(&head.counts);
    void *room = take_room(all);
    if (!room) return IS_OTHER;
    *file = parts_of(memcpy(room, &head, sizeof head));
    other = read_exactly(kept, file->head + 1, all - sizeof head, sizeof head);
    return other || check_of(file->head) == head.check ? other : IS_OTHER;
}

/* Returns whether a file is the image with the key `key`. */
static int is_of_key(const struct kept_file *it, const struct key *key) {
    uint64_t compared = key->program.kind == OF_BYTES ? key->program.length : 0;
    return is_same_key(&it->head->key, key) && it->head->counts.program == compared && is_whole(it);
}

/* ---- The pages of an image */

/* Maps a piece. Returns 0, or an error as a negative number. A kernel before 4.17 maps other pages
 * if these are in use. */
static int map_piece(const struct piece *it, int kept) {
    int kind = MAP_PRIVATE | MAP_FIXED_NOREPLACE | (it->from ? 0 : MAP_ANONYMOUS);
    int64_t map =
        kernel_map(it->address, it->length, (int)it->how, kind, it->from ? kept : -1, it->from);
    if (map == (int64_t)it->address) return 0;
    if (map < 0) return (int)map;
    kernel_unmap((uint64_t)map, it->length);
    return -EEXIST;
}

static void unmap_pieces(const struct piece *it, uint64_t count) {
    while (count-- > 0) kernel_unmap(it[count].address, it[count].length);
}

/* Maps all pieces, or none. Returns 0, or an error as a negative number. */
static int map_pieces(const struct kept_file *it, int kept) {
    for (uint64_t i = 0; i < it->head->counts.pieces; i++) {
        int error = map_piece(&it->pieces[i], kept);
        if (!error) continue;
        unmap_pieces(it->pieces, i);
        return error;
    }
    return 0;
}

/* ---- Taking an image */

/* Sets the data of an image that the rest of the loader needs, except the segments. They lie in the
 * beginning of the file, which stays in memory. */
static void take_objects(struct program *program, const struct kept_file *it) {
    const struct counts *counts = &it->head->counts;
    program->image.objects = it->objects;
    program->image.object_count = counts->objects;
    program->image.bytes = (uint8_t *)it->names;
    program->object = it->objects[0];
    program->base = program->object.base;
    program->initializers = (struct calls){ .at = it->calls, .count = counts->initializers };
    program->finalizers =
        (struct calls){ .at = it->calls + counts->initializers, .count = counts->finalizers };
}

/* Reports the reason why an image isn't used. Removes an image that can't be read, because it would
 * delay each later start. */
static void leave(const struct keeping *it, int other) {
    if (other == IS_OTHER) {
        say_more(it, "the image there is another one");
    } else {
        say_error(it, -other);
        kernel_remove(it->folder, it->name);
    }
}

/* Maps an image that has the key, and compares its sources. The comparison uses the image's own
 * pages, which the program will need anyway. Returns whether the image is used. */
static int take_image(struct keeping *it, struct program *program, int disk, int kept,
                      const struct kept_file *file) {
    int error = map_pieces(file, kept);
    if (error) {
        say_error(it, -error);
        it->may_keep = 0; /* a new image, at other addresses, would replace this one */
        return 0;
    }
    int other = compare_image(program, disk, kept, file);
    if (other) {
        unmap_pieces(file->pieces, file->head->counts.pieces);
        leave(it, other);
        return 0;
    }
    take_objects(program, file);
    return 1;
}

static int take_file(struct keeping *it, struct program *program, int disk, int kept,
                     uint64_t length) {
    struct kept_file file = { 0 };
    int is_taken = 0, other = read_beginning(kept, length, &file);
    if (!other && !is_of_key(&file, &it->key)) other = IS_OTHER;
    if (other)
        leave(it, other);
    else
        is_taken = take_image(it, program, disk, kept, &file);
    if (!is_taken) free_beginning(&file);
    return is_taken;
}

/* ---- */

static int is_of(const struct stat *file, const struct state *disk) {
    if (disk->kind == OF_DEVICE) return S_ISBLK(file->st_mode) && file->st_rdev == disk->device;
    return file->st_dev == disk->device && file->st_ino == disk->number;
}

/* Returns whether output to a standard stream may be written into a disk, or whether this is
 * unknown. */
static int is_stream(const struct state *disk) {
    struct stat found;
    for (int number = 0; number < STREAMS; number++) {
        int error = kernel_fstat(number, &found);
        if (error == -EBADF || (!error && !is_of(&found, disk))) continue;
        int how = kernel_flags(number);
        if (error || how < 0 || (how & O_ACCMODE) != O_RDONLY) return 1;
    }
    return 0;
}

/* Finds the key of an image for an open disk. Returns 0, or -1 if there is no key. There is none if
 * output would be written into the disk, because no image is started for such a disk. */
static int find_key(struct keeping *it, const struct program *program, int disk) {
    if (disk < 0 || key_of_loader(&it->key) || key_of_disk(disk, &it->key) ||
        is_stream(&it->key.disk) || key_of_program(program, &it->key)) {
        say_more(it, "nothing is kept by what is told of the disk, the program or the loader");
        return -1;
    }
    it->may_keep = is_settled(&it->key.program);
    if (!it->may_keep) say_more(it, "nothing is kept: the program was changed just now");
    return 0;
}

/* Uses the image that has the key, if there is one. Returns whether it is used. */
static int take_named(struct keeping *it, struct program *program, int disk) {
    uint64_t length;
    give_name(it, program);
    int kept = open_kept(it, it->name, &length);
    if (kept < 0) {
        kept == -ENOENT ? say_more(it, "no image is there") : say_error(it, -kept);
        return 0;
    }
    int is_taken = take_file(it, program, disk, kept, length);
    kernel_close(kept);
    if (is_taken) say_more(it, "its image is taken");
    return is_taken;
}

int take_kept(struct keeping *it, struct program *program, const char *path) {
    int error = open_folder(it);
    if (error) {
        say_error(it, -error);
        return 0;
    }
    int disk = kernel_open(AT_FDCWD, path, O_RDONLY | O_CLOEXEC | O_NOCTTY | O_NONBLOCK);
    int is_taken = !find_key(it, program, disk) && take_named(it, program, disk);
    if (disk >= 0) kernel_close(disk);
    return is_taken;
}

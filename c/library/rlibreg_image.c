/* Binds a program into new buffers. rlibreg.h is the manual. */
#define _GNU_SOURCE
#include "rlibreg_registry.h"

#include <stdlib.h>
#include <sys/mman.h>

/* Room for most images. The part that an image doesn't use is never touched. If the room is too
 * small, a program is bound twice. */
enum { FIRST_OBJECTS = 1024, FIRST_SEGMENTS = 4096 };

/* The sizes of an image's buffers: numbers of objects, of segments and of bytes. */
struct room {
    size_t objects, segments, bytes;
};

/* Requests large pages from the system if there is much room, because they are faster if most of
 * the room is used. Requests none for the beginning, so that a small image needs little memory. */
static void ask_for_large_pages(uint8_t *bytes, size_t room) {
    const uintptr_t large = 2 << 20, small_image = 4 << 20, much = 32 << 20;
    uintptr_t from = ((uintptr_t)bytes + small_image) / large * large;
    if (room > much) madvise((void *)from, (uintptr_t)bytes + room - from, MADV_HUGEPAGE);
}

static int make_room(rlibreg_image *out, struct room room) {
    out->objects = malloc(room.objects * sizeof *out->objects);
    out->segments = malloc(room.segments * sizeof *out->segments);
    out->bytes = malloc(room.bytes);
    if (out->objects && out->segments && out->bytes) {
        ask_for_large_pages(out->bytes, room.bytes);
        return 1;
    }
    rlibreg_image_free(out);
    return 0;
}

/* Allocates the first buffers of an image. If `room->bytes` bytes are refused, tries a quarter of
 * them, and so on, down to FIRST_BYTES. Returns whether there are buffers. */
static int make_first_room(rlibreg_image *out, struct room *room) {
    for (; room->bytes >= FIRST_BYTES; room->bytes /= 4)
        if (make_room(out, *room)) return 1;
    return 0;
}

/* Frees the parts of the buffers that an image doesn't use. */
static void give_room_back(rlibreg_image *it, size_t bytes) {
    it->objects = rlibreg_fitting(it->objects, it->object_count * sizeof *it->objects);
    it->segments = rlibreg_fitting(it->segments, it->count * sizeof *it->segments);
    it->bytes = rlibreg_fitting(it->bytes, bytes);
}

static uint32_t bind_into(rlibreg *it, const uint8_t *disk, const struct asked *what,
                          rlibreg_image *out, struct room room) {
    return rlibreg_bind(disk, it->file.length, what->bytes, what->length, what->base, out->objects,
                        room.objects, out->segments, room.segments, out->bytes, room.bytes,
                        it->text, it->text_room, &it->answer);
}

/* Binds a program with the bytes of a disk. At first there is room for `first_bytes` bytes of the
 * image. Returns a status. */
static uint32_t bind_over(rlibreg *it, const uint8_t *disk, const struct asked *what,
                          rlibreg_image *out, size_t first_bytes) {
    struct room room = { FIRST_OBJECTS, FIRST_SEGMENTS, first_bytes };
    if (!make_first_room(out, &room)) room = (struct room){ 0 }; /* if there are no buffers, the
                                                                  * bind still reports the sizes */
    for (;;) {
        uint32_t status = bind_into(it, disk, what, out, room);
        int again = rlibreg_text_was_cut(it) || status == RLIBREG_BUFFER_TOO_SMALL;
        if (!status && !again) break;
        if (!again) {
            rlibreg_image_free(out);
            return status;
        }
        if (status != RLIBREG_BUFFER_TOO_SMALL) continue;
        rlibreg_image_free(out);
        room = (struct room){ it->answer.objects, it->answer.count, it->answer.bytes };
        if (!make_room(out, room)) return rlibreg_say_memory(it);
    }
    out->count = it->answer.count;
    out->object_count = it->answer.objects;
    give_room_back(out, it->answer.bytes);
    return RLIBREG_DONE;
}

uint32_t rlibreg_bind_program(rlibreg *it, const void *program, size_t length, uint64_t base,
                              rlibreg_image *out) {
    return rlibreg_image_in(it, program, length, base, out, FIRST_BYTES);
}

uint32_t rlibreg_image_in(rlibreg *it, const void *program, size_t length, uint64_t base,
                          rlibreg_image *out, size_t first_bytes) {
    const struct asked what = { program, length, base };
    *out = (rlibreg_image){ 0 };
    uint32_t status = rlibreg_refuse(it);
    return status ? status : bind_over(it, it->file.bytes, &what, out, first_bytes);
}

uint32_t rlibreg_preview_bind(rlibreg *it, const rlibreg_change *changes, size_t count,
                              const void *bytes, size_t length, const void *program,
                              size_t program_length, uint64_t base, rlibreg_image *out) {
    const struct update update = { changes, count, bytes, length };
    const struct asked what = { program, program_length, base };
    uint8_t *plan;
    *out = (rlibreg_image){ 0 };
    uint32_t status = rlibreg_refuse(it);
    if (!status) status = rlibreg_make_update_plan(it, &update, &plan);
    if (status) return status;
    uint8_t *copy = rlibreg_copy_after(&it->file, plan, it->answer.bytes);
    free(plan);
    if (!copy) return rlibreg_say_memory(it);
    status = bind_over(it, copy, &what, out, FIRST_BYTES);
    munmap(copy, it->file.length);
    return status;
}

void rlibreg_image_free(rlibreg_image *it) {
    free(it->objects);
    free(it->segments);
    free(it->bytes);
    *it = (rlibreg_image){ 0 };
}

/* Finds the bytes of the program's file and of the disk with which a kept image is compared. Most
 * of these bytes are equal to pages of the image, which the kept file has only once. */
#define _GNU_SOURCE
#include "rlibreg_run_kept.h"

#include <stdlib.h>
#include <string.h>
#include <sys/mman.h>

/* Returns the piece that has an address, or null if it isn't in the file or may not be read. */
static const struct piece *kept_piece(const struct pieces *it, uint64_t address) {
    const struct piece *piece = piece_with(it->at, it->count, address);
    return piece && piece->from && piece->how & PROT_READ ? piece : NULL;
}

/* Returns the address of a page of an object that has the same bytes as its file at an offset, or
 * 0. */
static uint64_t page_of(const struct program *program, size_t object, uint64_t offset,
                        const uint8_t *bytes, const struct pieces *pieces) {
    const rlibreg_object *it = &program->image.objects[object];
    Elf64_Phdr one;
    for (size_t i = 0; header_at(&program->image, it, i, &one); i++) {
        if (one.p_type != PT_LOAD || offset < one.p_offset || one.p_filesz < PAGE ||
            offset - one.p_offset > one.p_filesz - PAGE)
            continue;
        uint64_t address = it->base + one.p_vaddr + (offset - one.p_offset);
        if (!(address % PAGE) && kept_piece(pieces, address) &&
            !memcmp((const void *)address, bytes, PAGE))
            return address;
    }
    return 0;
}

/* ---- Finding the stretches */

/* Returns whether a stretch continues the last stretch of the same list. */
static int goes_on(const struct stretches *it, const struct stretch *one,
                   const struct pieces *pieces) {
    if (it->count == it->first) return 0;
    const struct stretch *last = &it->at[it->count - 1];
    if (last->at + last->length != one->at || !last->address != !one->address) return 0;
    return !one->address ||
           (last->address + last->length == one->address &&
            kept_piece(pieces, last->address) == kept_piece(pieces, one->address));
}

static void add_stretch(struct stretches *it, struct stretch one, const struct pieces *pieces) {
    if (!one.address) it->others += one.length;
    if (goes_on(it, &one, pieces)) {
        it->at[it->count - 1].length += one.length;
        return;
    }
    if (it->count == it->room) {
        size_t room = 2 * it->room + 64;
        struct stretch *larger = realloc(it->at, room * sizeof *larger);
        if (!larger) {
            it->has_failed = 1;
            return;
        }
        it->at = larger;
        it->room = room;
    }
    it->at[it->count++] = one;
}

/* Adds bytes of an object's file. They are at `one.offset` in the file, and are compared at
 * `one.at`. */
static void add_bytes(struct stretches *it, const struct program *program, struct extent one,
                      const uint8_t *bytes, const struct pieces *pieces) {
    for (uint64_t step, end = one.at + one.length; one.at < end; one.at += step) {
        step = PAGE - one.offset % PAGE;
        if (step > end - one.at) step = end - one.at;
        uint64_t page = step == PAGE ? page_of(program, one.object, one.offset, bytes, pieces) : 0;
        add_stretch(it, (struct stretch){ one.at, step, page, 0 }, pieces);
        one.offset += step;
        bytes += step;
    }
}

void find_stretches_of_program(struct stretches *it, const struct program *program,
                               const struct pieces *pieces) {
    struct extent all = { .length = program->length };
    add_bytes(it, program, all, program->bytes, pieces);
    it->first = it->count;
}

void find_stretches_of_disk(struct stretches *it, const struct program *program,
                            const struct sources *sources, const struct pieces *pieces) {
    for (size_t i = 0; i < sources->count; i++) {
        const struct extent *one = &sources->at[i];
        if (one->object)
            add_bytes(it, program, *one, sources->copy + one->at, pieces);
        else
            add_stretch(it, (struct stretch){ .at = one->at, .length = one->length }, pieces);
    }
}

void place_stretches(struct stretches *it, uint64_t others) {
    for (struct stretch *one = it->at; one < it->at + it->count; one++) {
        if (one->address) continue;
        one->from = others;
        others += one->length;
    }
}

/* Reads the objects of an image in the bytes of their segments, before these bytes are in memory
 * that may be unreadable. */
#define _GNU_SOURCE
#include "rlibreg_run.h"

#include <string.h>

const char *name_of(const struct program *it, const rlibreg_object *object) {
    if (object == it->image.objects) return it->path;
    return (const char *)it->image.bytes + object->name;
}

/* ---- Segments */

/* Returns the object's segment that has an address, or null. It is the last segment that begins at
 * the address or below. */
static const rlibreg_segment *segment_of(const rlibreg_image *image, const rlibreg_object *object,
                                         uint64_t address) {
    const rlibreg_segment *first = image->segments + object->first_segment;
    size_t count = object->segments;
    while (count > 1) {
        size_t half = count / 2;
        if (first[half].address <= address) first += half;
        count -= half;
    }
    if (!count || address < first->address || address - first->address >= first->length)
        return NULL;
    return first;
}

int is_code(const rlibreg_image *image, const rlibreg_object *object, uint64_t address) {
    const rlibreg_segment *segment = segment_of(image, object, address);
    return segment && segment->permissions & RLIBREG_EXECUTE;
}

const uint8_t *memory_at(const rlibreg_image *image, const rlibreg_object *object, uint64_t address,
                         uint64_t *length) {
    const rlibreg_segment *segment = segment_of(image, object, address);
    if (!segment) return NULL;
    *length = segment->length - (address - segment->address);
    return image->bytes + segment->offset + (address - segment->address);
}

/* ---- Program headers */

int header_at(const rlibreg_image *image, const rlibreg_object *object, size_t number,
              Elf64_Phdr *one) {
    uint64_t length;
    const uint8_t *bytes = object->headers ? memory_at(image, object, object->headers, &length) : 0;
    if (!bytes || number >= object->header_count || number >= length / sizeof *one) return 0;
    memcpy(one, bytes + number * sizeof *one, sizeof *one);
    return 1;
}

/* Reads the first program header of a type. Returns whether there is one. */
static int header_of(const rlibreg_image *image, const rlibreg_object *object, uint32_t type,
                     Elf64_Phdr *one) {
    for (size_t i = 0; header_at(image, object, i, one); i++)
        if (one->p_type == type) return 1;
    return 0;
}

static uint64_t end_of(const rlibreg_image *image, const rlibreg_object *object) {
    if (!object->segments) return object->base;
    const rlibreg_segment *last = image->segments + object->first_segment + (object->segments - 1);
    return last->address + last->length;
}

/* As in other loaders, the fixed pages are those from the page in which PT_GNU_RELRO begins to its
 * last whole page. No fixed page lies past the object's memory. A program that names no loader has
 * no fixed pages, because the start of a static PIE relocates it again. */
struct pages fixed_pages(const rlibreg_image *image, const rlibreg_object *object) {
    Elf64_Phdr one;
    struct pages none = { object->base, object->base };
    uint64_t reach = end_of(image, object) - object->base;
    if (object == image->objects && !header_of(image, object, PT_INTERP, &one)) return none;
    if (!header_of(image, object, PT_GNU_RELRO, &one) || one.p_vaddr > reach) return none;
    uint64_t length = one.p_memsz < reach - one.p_vaddr ? one.p_memsz : reach - one.p_vaddr;
    uint64_t from = object->base + one.p_vaddr;
    return (struct pages){ from / PAGE * PAGE, (from + length) / PAGE * PAGE };
}

/* ---- Dynamic sections */

Elf64_Dyn entry_at(const struct dynamic *it, size_t number) {
    Elf64_Dyn entry;
    memcpy(&entry, it->bytes + number * sizeof entry, sizeof entry);
    return entry;
}

struct dynamic dynamic_of(const rlibreg_image *image, const rlibreg_object *object) {
    uint64_t length = 0;
    struct dynamic it = { 0 };
    if (object->dynamic) it.bytes = memory_at(image, object, object->dynamic, &length);
    while (it.bytes && it.count < length / sizeof(Elf64_Dyn) &&
           entry_at(&it, it.count).d_tag != DT_NULL)
        it.count++;
    return it;
}

int has_tag(const struct dynamic *it, int64_t tag, uint64_t *value) {
    for (size_t i = it->count; i-- > 0;) {
        Elf64_Dyn entry = entry_at(it, i);
        if (entry.d_tag != tag) continue;
        *value = entry.d_un.d_val;
        return 1;
    }
    return 0;
}

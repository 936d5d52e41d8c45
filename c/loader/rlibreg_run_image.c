/* Maps the image: its pages, their bytes and their permissions. */
#define _GNU_SOURCE
#include "rlibreg_disk_file.h"
#include "rlibreg_run.h"

#include <errno.h>
#include <stdio.h>
#include <stdlib.h>
#include <string.h>
#include <sys/mman.h>

/* The number of bytes for which an image first has room. */
enum { FIRST_ROOM = 1 << 30 };

static uint64_t page_of(uint64_t address) {
    return address & ~(PAGE - 1);
}

static uint64_t page_behind(const rlibreg_segment *segment) {
    return page_of(segment->address + segment->length + PAGE - 1);
}

/* ---- Pages */

/* Maps the pages from the address `from` up to `to`, if nothing is mapped there. Returns 0, or -1
 * with errno. A kernel before 4.17 maps other pages instead. Always refuses the page at 0, to which
 * null points, as the kernel refuses it to users other than root. */
static int take_pages(uint64_t from, uint64_t to) {
    if (!from) {
        errno = EPERM;
        return -1;
    }
    void *map = mmap((void *)from, to - from, PROT_READ | PROT_WRITE,
                     MAP_PRIVATE | MAP_ANONYMOUS | MAP_FIXED_NOREPLACE, -1, 0);
    if (map == (void *)from) return 0;
    if (map == MAP_FAILED) return -1;
    munmap(map, to - from);
    errno = EEXIST;
    return -1;
}

/* Unmaps the pages of the segments that begin below `end`. */
static void free_pages(const rlibreg_image *image, uint64_t end) {
    int why = errno;
    for (size_t i = 0; i < image->count; i++) {
        uint64_t from = page_of(image->segments[i].address), to = page_behind(&image->segments[i]);
        if (image->segments[i].length && from < end) munmap((void *)from, to - from);
    }
    errno = why;
}

/* Maps the pages of all segments, with one call for adjacent pages. Maps all of them or none.
 * Returns 0, or -1 with errno. */
static int take_all_pages(const rlibreg_image *image) {
    uint64_t from = 0, to = 0; /* adjacent pages that haven't been mapped yet */
    for (size_t i = 0; i <= image->count; i++) {
        const rlibreg_segment *it = i < image->count ? &image->segments[i] : NULL;
        if (it && !it->length) continue;
        if (!it || page_of(it->address) > to) {
            if (from < to && take_pages(from, to)) {
                free_pages(image, from);
                return -1;
            }
            if (it) from = page_of(it->address);
        }
        if (it) to = page_behind(it);
    }
    return 0;
}

/* ---- Permissions */

static int protection(const rlibreg_segment *it) {
    return (it->permissions & RLIBREG_READ ? PROT_READ : 0) |
           (it->permissions & RLIBREG_WRITE ? PROT_WRITE : 0) |
           (it->permissions & RLIBREG_EXECUTE ? PROT_EXEC : 0);
}

/* Pages that get the same permissions by one call. */
struct run {
    uint64_t from, to;
    int how;
};

/* Calls an action for pages. The fixed ones among them get no permission to write. */
static void act(page_action *action, const struct part *part, uint64_t from, uint64_t to, int how) {
    uint64_t first = part->fixed.from, end = part->fixed.to;
    if (first < from) first = from;
    if (first > to) first = to;
    if (end < first) end = first;
    if (end > to) end = to;
    if (from < first) action(part, from, first, how);
    if (first < end) action(part, first, end, how & ~PROT_WRITE);
    if (end < to) action(part, end, to, how);
}

/* Calls an action for the pages of an object, with the permissions of the segments in these
 * pages. */
static void each_pages_of(const struct part *part, page_action *action) {
    uint64_t last = 0; /* address of the last page of the previous segments */
    int shared = 0;    /* permissions that the previous segments give this page */
    const rlibreg_segment *it = part->program->image.segments + part->object->first_segment;
    for (const rlibreg_segment *end = it + part->object->segments; it < end; it++) {
        uint64_t from = page_of(it->address), to = page_behind(it);
        if (!it->length) continue;
        int own = protection(it), first = from == last ? own | shared : own;
        act(action, part, from, from + PAGE, first);
        act(action, part, from + PAGE, to, own);
        last = to - PAGE;
        shared = last == from ? first : own;
    }
}

/* The pages of each object are handled separately, because two objects never share a page. */
void each_pages(const struct program *program, page_action *action, void *context) {
    const rlibreg_image *image = &program->image;
    for (size_t i = 0; i < image->object_count; i++) {
        const rlibreg_object *it = &image->objects[i];
        struct part part = { program, it, fixed_pages(image, it), context };
        each_pages_of(&part, action);
    }
}

static void refuse_both(const struct part *part, uint64_t from, uint64_t to, int how) {
    (void)from, (void)to;
    if (how & PROT_WRITE && how & PROT_EXEC && !part->program->may_be_both)
        give_up(REFUSED, name_of(part->program, part->object),
                "it has memory that may be written and executed, for which -x is needed");
}

static void protect_run(const struct run *it) {
    if (it->from == it->to || !mprotect((void *)it->from, it->to - it->from, it->how)) return;
    if (it->how & PROT_EXEC && (errno == EACCES || errno == EPERM))
        fail("memory that may be executed (SELinux: allow execmem; "
             "systemd: MemoryDenyWriteExecute=no)");
    fail("permissions");
}

/* Protects pages. If the pages before them get the same permissions, one call protects both. For
 * this reason, the last pages aren't protected until the next pages are known. */
static void protect(const struct part *part, uint64_t from, uint64_t to, int how) {
    struct run *run = part->context;
    if (from == run->to && how == run->how) {
        run->to = to;
        return;
    }
    protect_run(run);
    *run = (struct run){ from, to, how };
}

void protect_program(const struct program *program) {
    struct run run = { 0 };
    each_pages(program, protect, &run);
    protect_run(&run);
}

/* ---- The image */

/* Prints advice for a user whose program needs a C library. `line` is the refusal, which ends with
 * the missing name. */
static void advise(const char *line) {
    const char *name = strrchr(line, ' ');
    if (name && (!strncmp(name, " libc.so", 8) || !strncmp(name, " libc.musl-", 11)))
        fputs("rlibreg-run: no registry has a C library: link it into the program, statically\n",
              stderr);
}

static void refuse(const rlibreg *registry, uint32_t status, const char *disk) {
    if (status < 100) give_up(FAILED, disk, rlibreg_status_name(status));
    fputs(rlibreg_text(registry), stderr);
    if (status == RLIBREG_MISSING) advise(rlibreg_text(registry));
    exit(status == RLIBREG_OUT_OF_MEMORY || status == RLIBREG_DEVICE ? FAILED : REFUSED);
}

/* Returns whether an image ends below the addresses at which the kernel maps files. */
static int is_low(const rlibreg_image *image) {
    if (!image->count) return 1;
    const rlibreg_segment *last = &image->segments[image->count - 1];
    return last->address + last->length <= END_OF_BASES;
}

/* Returns whether the program has an entry in its own code. A 0 in the file's e_entry means that
 * the program has no entry. */
static int has_entry(const struct program *it) {
    return it->object.entry != it->base && is_code(&it->image, it->image.objects, it->object.entry);
}

/* Binds the program at a base, and maps the pages of the image. Returns whether the pages were free
 * and, if the loader chose the base, low enough. If this is false, errno shows which of the two
 * conditions failed, and another base may succeed. */
static int bind_at(struct program *it, rlibreg *registry, const char *disk) {
    uint32_t status =
        rlibreg_image_in(registry, it->bytes, it->length, it->base, &it->image, FIRST_ROOM);
    if (status) refuse(registry, status, disk);
    it->object = it->image.objects[0];
    if (!has_entry(it)) give_up(REFUSED, it->path, "it has no entry");
    each_pages(it, refuse_both, NULL);
    if (!it->has_base && !is_low(&it->image))
        errno = ENOMEM;
    else if (!take_all_pages(&it->image))
        return 1;
    else if (errno != EEXIST)
        fail("memory at the base");
    rlibreg_image_free(&it->image);
    return 0;
}

#ifndef MADV_POPULATE_WRITE /* Linux 5.14 */
#define MADV_POPULATE_WRITE 23
#endif

void expect_bytes(uint64_t from, uint64_t length) {
    uint64_t first = page_of(from);
    if (length) madvise((void *)first, from + length - first, MADV_POPULATE_WRITE);
}

/* Returns the offset in a segment at which the page of byte `at` ends, or the end of the segment if
 * that comes first. */
static uint64_t end_of_page(const rlibreg_segment *it, uint64_t at) {
    uint64_t end = at + PAGE - (it->address + at) % PAGE;
    return end < it->length ? end : it->length;
}

static int is_zero(const uint8_t *bytes, uint64_t length) {
    static const uint8_t zeros[PAGE];
    return !memcmp(bytes, zeros, length);
}

/* Copies the bytes of a segment, except pages of zeros. The mapped pages are already zeros, and
 * take no memory until they are written. */
static void put_segment(const rlibreg_segment *it, const uint8_t *bytes) {
    uint64_t end, next;
    for (uint64_t at = 0; at < it->length; at = end) {
        end = end_of_page(it, at);
        if (is_zero(bytes + at, end - at)) continue;
        for (; end < it->length; end = next) {
            next = end_of_page(it, end);
            if (is_zero(bytes + end, next - end)) break;
        }
        expect_bytes(it->address + at, end - at);
        memcpy((void *)(it->address + at), bytes + at, end - at);
    }
}

static void put_bytes(const rlibreg_image *image) {
    for (size_t i = 0; i < image->count; i++)
        put_segment(&image->segments[i], image->bytes + image->segments[i].offset);
}

void map_program(struct program *it, rlibreg *registry, const char *disk) {
    int tries = it->has_base ? 1 : MOST_BASES, is_there = 0;
    for (int i = 0; i < tries && !is_there; i++) {
        if (!it->has_base) it->base = base_of_try(it, i);
        is_there = bind_at(it, registry, disk);
    }
    if (!is_there) fail("memory at the base");
    put_bytes(&it->image);
}

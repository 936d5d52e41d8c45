/* Finds the initializers and finalizers of the libraries in their dynamic sections, before the
 * program is started. */
#define _GNU_SOURCE
#include "rlibreg_run.h"

#include <stdio.h>
#include <stdlib.h>
#include <string.h>

static void add(struct calls *calls, uint64_t address) {
    if (calls->count == calls->room) {
        calls->room = 2 * calls->room + 16;
        calls->at = realloc(calls->at, calls->room * sizeof *calls->at);
        if (!calls->at) fail("memory");
    }
    calls->at[calls->count++] = address;
}

/* ---- Finding the functions */

/* An object and its dynamic section. */
struct source {
    const struct program *program;
    const rlibreg_object *object;
    struct dynamic dynamic;
};

static struct source source_of(const struct program *it, size_t number) {
    const rlibreg_object *object = it->image.objects + number;
    struct source source = { it, object, dynamic_of(&it->image, object) };
    if (!source.dynamic.bytes)
        give_up(REFUSED, name_of(it, object), "its dynamic section isn't in its memory");
    return source;
}

static _Noreturn void refuse(const struct source *it, const char *tag, const char *why) {
    char text[96];
    snprintf(text, sizeof text, "%s %s", tag, why);
    give_up(REFUSED, name_of(it->program, it->object), text);
}

static void add_code(struct calls *calls, const struct source *it, uint64_t address,
                     const char *tag) {
    if (!is_code(&it->program->image, it->object, address))
        refuse(it, tag, "names a function that isn't in its own code");
    add(calls, address);
}

static void add_function(struct calls *calls, const struct source *it, int64_t tag,
                         const char *name) {
    uint64_t value;
    if (has_tag(&it->dynamic, tag, &value)) add_code(calls, it, it->object->base + value, name);
}

/* Adds the addresses of an array, which have already been relocated. */
static void add_array(struct calls *calls, const struct source *it, int64_t tag, int64_t size_tag,
                      const char *name) {
    uint64_t value, size = 0, room = 0, address;
    if (!has_tag(&it->dynamic, tag, &value)) return;
    int is_sized = has_tag(&it->dynamic, size_tag, &size);
    if (is_sized && !size) return;
    const uint8_t *array =
        memory_at(&it->program->image, it->object, it->object->base + value, &room);
    if (!is_sized || !array || size > room) refuse(it, name, "isn't in its memory");
    if (size % sizeof address) refuse(it, name, "has no whole number of addresses");
    for (uint64_t at = 0; at < size; at += sizeof address) {
        memcpy(&address, array + at, sizeof address);
        add_code(calls, it, address, name);
    }
}

static void add_initializers(struct program *it, size_t number) {
    struct source source = source_of(it, number);
    add_function(&it->initializers, &source, DT_INIT, "DT_INIT");
    add_array(&it->initializers, &source, DT_INIT_ARRAY, DT_INIT_ARRAYSZ, "DT_INIT_ARRAY");
}

static void add_finalizers(struct program *it, size_t number) {
    struct source source = source_of(it, number);
    add_function(&it->finalizers, &source, DT_FINI, "DT_FINI");
    add_array(&it->finalizers, &source, DT_FINI_ARRAY, DT_FINI_ARRAYSZ, "DT_FINI_ARRAY");
}

/* Returns the number of the library that is initialized before everything else, because of its
 * DF_1_INITFIRST. If several libraries have this flag, returns the last of them in load order, as
 * glibc does. The library is finalized in its usual place. Returns 0, the number of the program, if
 * no library has the flag. */
static size_t first_of_all(const struct program *it) {
    for (size_t i = it->image.object_count; i-- > 1;) {
        uint64_t flags;
        struct dynamic dynamic = dynamic_of(&it->image, it->image.objects + i);
        if (has_tag(&dynamic, DT_FLAGS_1, &flags) && flags & DF_1_INITFIRST) return i;
    }
    return 0;
}

void find_calls(struct program *it) {
    size_t *order = order_of_libraries(it), first = first_of_all(it);
    struct source program = source_of(it, 0);
    if (first) add_initializers(it, first);
    add_array(&it->initializers, &program, DT_PREINIT_ARRAY, DT_PREINIT_ARRAYSZ, "DT_PREINIT_ARRAY");
    for (size_t i = 0; i + 1 < it->image.object_count; i++) {
        if (order[i] != first) add_initializers(it, order[i]);
        add_finalizers(it, order[i]);
    }
    free(order);
}

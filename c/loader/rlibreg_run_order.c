/* The order in which libraries are initialized (gABI chapter 5, "Initialization and Termination
 * Functions"): a library comes after those that it needs. If libraries need each other in a circle,
 * the order is that of the loader of glibc 2.35 and later. A walk begins at each object, from the
 * last in load order to the first, and goes to what the object needs in the order of its DT_NEEDED.
 * The libraries are initialized in the order in which the walk leaves them. */
#define _GNU_SOURCE
#include "rlibreg_run.h"

#include <stdlib.h>
#include <string.h>

/* A library and its name. */
struct named {
    const char *name;
    size_t number;
};

/* A library that the walk has entered and not left yet. */
struct entered {
    size_t number;
    struct dynamic dynamic;
    size_t next;      /* number of its next entry */
    uint64_t strings; /* address of its string table */
};

struct walk {
    const struct program *program;
    struct named *names; /* the libraries, sorted by name */
    size_t libraries;
    char *was_entered; /* whether a library was entered, by its number */
    struct entered *path;
    size_t depth;
    size_t *order; /* the libraries that the walk has left */
    size_t left;
};

static int compare_names(const void *a, const void *b) {
    return strcmp(((const struct named *)a)->name, ((const struct named *)b)->name);
}

/* A name to look for, and the maximum number of its bytes: the number up to the end of the segment
 * in which it lies. */
struct wanted {
    const char *name;
    uint64_t room;
};

static int compare_wanted(const void *wanted, const void *named) {
    const struct wanted *it = wanted;
    return strncmp(it->name, ((const struct named *)named)->name, it->room);
}

/* Returns the number of the library that the library `it` needs by the name at `offset` in the
 * string table of `it`. */
static size_t needed_library(const struct walk *walk, const struct entered *it, uint64_t offset) {
    const rlibreg_image *image = &walk->program->image;
    const rlibreg_object *object = &image->objects[it->number];
    struct wanted wanted = { 0 };
    const struct named *found = NULL;
    wanted.name = (const char *)memory_at(image, object, it->strings + offset, &wanted.room);
    if (wanted.name)
        found = bsearch(&wanted, walk->names, walk->libraries, sizeof *found, compare_wanted);
    if (!found || strlen(found->name) >= wanted.room)
        give_up(REFUSED, name_of(walk->program, object),
                "a name that it needs isn't in its memory");
    return found->number;
}

static void enter(struct walk *walk, size_t number) {
    const rlibreg_image *image = &walk->program->image;
    const rlibreg_object *object = &image->objects[number];
    if (walk->was_entered[number]) return;
    walk->was_entered[number] = 1;
    struct entered *it = &walk->path[walk->depth++];
    *it = (struct entered){ .number = number, .dynamic = dynamic_of(image, object) };
    if (has_tag(&it->dynamic, DT_STRTAB, &it->strings)) it->strings += object->base;
}

/* Makes one step of the walk: goes to the next entry of the library that was entered last, or
 * leaves that library. */
static void step(struct walk *walk) {
    struct entered *last = &walk->path[walk->depth - 1];
    if (last->next == last->dynamic.count) {
        walk->order[walk->left++] = last->number;
        walk->depth--;
        return;
    }
    Elf64_Dyn entry = entry_at(&last->dynamic, last->next++);
    if (entry.d_tag == DT_NEEDED) enter(walk, needed_library(walk, last, entry.d_un.d_val));
}

static void *room_for(size_t count, size_t size) {
    void *room = calloc(count, size);
    if (!room) fail("memory");
    return room;
}

size_t *order_of_libraries(const struct program *it) {
    size_t objects = it->image.object_count;
    struct walk walk = { .program = it, .libraries = objects - 1 };
    walk.names = room_for(objects, sizeof *walk.names);
    walk.was_entered = room_for(objects, 1);
    walk.path = room_for(objects, sizeof *walk.path);
    walk.order = room_for(objects, sizeof *walk.order);
    for (size_t i = 1; i < objects; i++)
        walk.names[i - 1] = (struct named){ name_of(it, it->image.objects + i), i };
    qsort(walk.names, walk.libraries, sizeof *walk.names, compare_names);
    for (size_t i = objects; i-- > 1;) {
        enter(&walk, i);
        while (walk.depth) step(&walk);
    }
    free(walk.names);
    free(walk.was_entered);
    free(walk.path);
    return walk.order;
}

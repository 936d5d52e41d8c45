/* Finds the table of unwind data for an address. gcc's unwinder, which is in the program, asks for
 * it in each frame that an exception passes. */
#define _GNU_SOURCE
#include "rlibreg_objects.h"

/* The answer, as in glibc 2.35, for which the unwinder was built. */
struct dl_find_object {
    unsigned long long flags;
    void *start, *end; /* of the object */
    void *link_map;    /* null: the unwinder doesn't read it */
    void *frames;      /* the PT_GNU_EH_FRAME of the object */
    unsigned long long reserved[7];
};

int _dl_find_object(void *address, struct dl_find_object *);

/* Returns the object that has an address, or null. In a registry's image, each object lies above
 * the object before it. Under musl's loader the objects have no such order. */
static const struct rlibreg_object *object_at(uintptr_t address) {
    struct rlibreg_objects all = rlibreg_all_objects();
    size_t from = 0, to = all.count;
    while (to - from > 1) {
        size_t middle = from + (to - from) / 2;
        if (all.at[middle].base <= address)
            from = middle;
        else
            to = middle;
    }
    if (address >= all.at[from].base && address < all.at[from].end) return &all.at[from];
    return rlibreg_object_at(address);
}

/* Returns 0, or -1 if no object has unwind data for the address. */
int _dl_find_object(void *address, struct dl_find_object *found) {
    const struct rlibreg_object *it = object_at((uintptr_t)address);
    for (size_t i = 0; it && i < it->header_count; i++) {
        if (it->headers[i].p_type != PT_GNU_EH_FRAME) continue;
        *found = (struct dl_find_object){ .start = (void *)it->base,
                                          .end = (void *)it->end,
                                          .frames = (void *)(it->base + it->headers[i].p_vaddr) };
        return 0;
    }
    return -1;
}

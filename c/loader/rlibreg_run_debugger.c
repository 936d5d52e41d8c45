/* Shows a debugger the addresses of the program and its libraries. The debugger finds the list of
 * objects through the dynamic section of the process's file, which is the loader's (link.h). */
#define _GNU_SOURCE
#include "rlibreg_run_kernel.h"
#include "rlibreg_run.h"

#include <link.h>

/* musl's header doesn't declare `_DYNAMIC`. */
extern ElfW(Dyn) _DYNAMIC[] __attribute__((visibility("hidden")));

/* The data that a debugger reads. The first three fields are used as long as no C library has a
 * list. */
struct told {
    struct r_debug list;
    struct link_map loader;
    char nameless;
    struct link_map objects[];
};

size_t room_of_list(const struct program *it) {
    return sizeof(struct told) + it->image.object_count * sizeof(struct link_map);
}

/* A debugger sets a breakpoint at this address, and reads the list when the breakpoint is reached.
 * Before any code has run, the debugger finds the function by its name. */
__attribute__((noinline)) void r_debug_state(void);
void r_debug_state(void) {
    __asm__ volatile("");
}

static void tell_state(struct r_debug *list, int state) {
    list->r_state = state;
    r_debug_state();
    if (list->r_brk != (ElfW(Addr))r_debug_state) ((void (*)(void))list->r_brk)();
}

/* Writes to a page without changing it. A read and a later write cause two page faults; with this
 * call there is only one. */
static void expect_write(void *at) {
    __asm__ volatile("lock orb $0, %0" : "+m"(*(uint8_t *)at) : : "cc");
}

/* Returns the list of the C library, or a list that has only the loader as long as there is
 * none. */
static struct r_debug *list_of_objects(const struct program *it, struct told *room) {
    extern const char __ehdr_start[] __attribute__((visibility("hidden")));
    ElfW(Dyn) *entry = _DYNAMIC;
    if (it->is_early) expect_write(entry);
    while (entry->d_tag != DT_NULL && entry->d_tag != DT_DEBUG) entry++;
    if (entry->d_tag == DT_NULL) return NULL;
    if (entry->d_un.d_ptr || !it->is_early) return (struct r_debug *)entry->d_un.d_ptr;
    room->nameless = 0;
    room->loader = (struct link_map){ .l_addr = (ElfW(Addr))__ehdr_start,
                                      .l_name = &room->nameless,
                                      .l_ld = _DYNAMIC };
    room->list = (struct r_debug){ .r_version = 1,
                                   .r_map = &room->loader,
                                   .r_brk = (ElfW(Addr))r_debug_state };
    entry->d_un.d_ptr = (ElfW(Addr))&room->list;
    return &room->list;
}

/* Lists the objects of the image for a debugger, each after the previous one. A library has no
 * file, so the list has only its name. */
static void put_objects(const struct program *it, struct told *room, char *path,
                        struct link_map *last) {
    for (size_t i = 0; i < it->image.object_count; i++) {
        const rlibreg_object *object = &it->image.objects[i];
        struct link_map *own = &room->objects[i];
        *own = (struct link_map){ .l_addr = object->base,
                                  .l_name = i ? (char *)it->image.bytes + object->name : path,
                                  .l_ld = (ElfW(Dyn) *)object->dynamic,
                                  .l_prev = i ? own - 1 : last };
        if (i) own[-1].l_next = own;
    }
}

void tell_debugger(const struct program *it, void *room, char *path) {
    struct told *told = room;
    struct r_debug *list = list_of_objects(it, told);
    if (!list || !list->r_map || !list->r_brk || !path) return;
    struct link_map *last = list->r_map;
    while (last->l_next) last = last->l_next;
    put_objects(it, told, path, last);
    tell_state(list, RT_ADD);
    last->l_next = told->objects;
    tell_state(list, RT_CONSISTENT);
}

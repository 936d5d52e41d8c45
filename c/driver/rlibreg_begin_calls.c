/* Calls the libraries' initializers and finalizers if no loader does. In the same way as
 * rlibreg-run, requires that a function lies in the code of the object that names it
 * (rlibreg_run_calls.c), and uses the same order (rlibreg_run_order.c). */
#define _GNU_SOURCE
#include "rlibreg_begin.h"
#include "rlibreg_objects.h"

#include <string.h>
#include <sys/mman.h>
#include <unistd.h>

enum { MOST = 2048, REFUSED = 125 };
typedef void initializer(int, char **, char **);
typedef void finalizer(void);

#pragma GCC visibility push(hidden)
extern initializer *const __preinit_array_start[], *const __preinit_array_end[];
#pragma GCC visibility pop

/* Addresses of functions in an object's memory. */
struct functions {
    const uintptr_t *at;
    size_t count;
};

/* A walk over the libraries, which are identified by their numbers. It is mapped only if it is
 * needed, so that other starts touch fewer pages. */
struct walk {
    struct rlibreg_objects objects;
    char was_entered[MOST + 1];  /* by the number of the library */
    uint16_t order[MOST];        /* the order in which the libraries are initialized */
    size_t ordered;              /* number of libraries in `order` that haven't been finalized
                                  * yet */
    struct functions finalizers; /* finalizers of one library that haven't been called yet;
                                  * `last` is its DT_FINI, or 0 */
    uintptr_t last;
};
static struct walk *walked;

static _Noreturn void refuse(const struct rlibreg_object *it, const char *tag, const char *why) {
    const char *parts[] = { "rlibreg: ", it->name, *it->name ? ": " : "", tag, why, "\n" };
    for (size_t i = 0; i < sizeof parts / sizeof *parts; i++)
        if (write(2, parts[i], strlen(parts[i])) < 0) break;
    _exit(REFUSED);
}

/* Enters library number `number`, and then the libraries that it needs. When the walk leaves the
 * library, its number is appended to the order. */
static void enter(struct walk *walk, size_t number) {
    const struct rlibreg_object *it = &walk->objects.at[number], *needed;
    if (walk->was_entered[number]) return;
    walk->was_entered[number] = 1;
    for (const Elf64_Dyn *entry = it->dynamic; entry->d_tag != DT_NULL; entry++)
        if (entry->d_tag == DT_NEEDED) {
            needed = rlibreg_object_named(it->strings + entry->d_un.d_val);
            if (needed) enter(walk, (size_t)(needed - walk->objects.at));
        }
    walk->order[walk->ordered++] = (uint16_t)number;
}

/* Returns whether an address lies in a segment of an object, and the segment permits all of
 * `flags`. */
static int is_within(const struct rlibreg_object *it, uintptr_t address, uint32_t flags) {
    for (size_t i = 0; i < it->header_count; i++)
        if (it->headers[i].p_type == PT_LOAD && (it->headers[i].p_flags & flags) == flags &&
            address - it->base - it->headers[i].p_vaddr < it->headers[i].p_memsz)
            return 1;
    return 0;
}

/* Returns the address of the function that a tag names, or 0 if the object doesn't have the tag. */
static uintptr_t function_of(const struct rlibreg_object *it, int64_t tag, const char *name) {
    uint64_t value = rlibreg_tag_of(it, tag, UINT64_MAX);
    if (value == UINT64_MAX) return 0;
    if (!is_within(it, it->base + value, PF_X))
        refuse(it, name, " names a function that isn't in its own code");
    return it->base + value;
}

/* Returns the functions of an array, or none if the object doesn't have the tag. */
static struct functions array_of(const struct rlibreg_object *it, int64_t tag, int64_t size_tag,
                                 const char *name) {
    uint64_t value = rlibreg_tag_of(it, tag, UINT64_MAX),
             size = rlibreg_tag_of(it, size_tag, UINT64_MAX);
    struct functions found = { 0 };
    if (value == UINT64_MAX || !size) return found;
    if (size == UINT64_MAX || !is_within(it, it->base + value, 0) ||
        !is_within(it, it->base + value + size - 1, 0))
        refuse(it, name, " isn't in its memory");
    if (size % sizeof *found.at) refuse(it, name, " has no whole number of addresses");
    found.at = (const uintptr_t *)(it->base + value);
    found.count = size / sizeof *found.at;
    for (size_t i = 0; i < found.count; i++)
        if (!is_within(it, found.at[i], PF_X))
            refuse(it, name, " names a function that isn't in its own code");
    return found;
}

static struct functions initializers_of(const struct rlibreg_object *it) {
    return array_of(it, DT_INIT_ARRAY, DT_INIT_ARRAYSZ, "DT_INIT_ARRAY");
}
static struct functions finalizers_of(const struct rlibreg_object *it) {
    return array_of(it, DT_FINI_ARRAY, DT_FINI_ARRAYSZ, "DT_FINI_ARRAY");
}

/* Ends the process if a function or an array doesn't lie in the object's own code or memory. */
static void test(const struct rlibreg_object *it) {
    function_of(it, DT_INIT, "DT_INIT");
    function_of(it, DT_FINI, "DT_FINI");
    initializers_of(it);
    finalizers_of(it);
}

static void initialize(const struct rlibreg_object *it, int count, char **words,
                       char **environment) {
    struct functions array = initializers_of(it);
    uintptr_t function = function_of(it, DT_INIT, "DT_INIT");
    if (function) ((initializer *)function)(count, words, environment);
    for (size_t i = 0; i < array.count; i++)
        ((initializer *)array.at[i])(count, words, environment);
}

/* Returns the number of the library that is initialized before everything else, because of its
 * DF_1_INITFIRST. If several libraries have this flag, it is the last of these libraries in load
 * order, as in rlibreg-run. Returns 0 if there is none. */
static size_t first_of(const struct rlibreg_objects *all) {
    size_t i = all->count - 1;
    while (i && !(rlibreg_tag_of(&all->at[i], DT_FLAGS_1, 0) & DF_1_INITFIRST)) i--;
    return i;
}

static struct walk *walk_over(struct rlibreg_objects all) {
    struct walk *it =
        mmap(NULL, sizeof *it, PROT_READ | PROT_WRITE, MAP_PRIVATE | MAP_ANONYMOUS, -1, 0);
    if (it == MAP_FAILED) refuse(&all.at[0], "memory", " was refused");
    it->objects = all;
    for (size_t i = all.count; i-- > 1;) enter(it, i);
    return it;
}

void rlibreg_initialize(int count, char **words, char **environment) {
    struct walk *walk = walked = walk_over(rlibreg_all_objects());
    const struct rlibreg_object *objects = walk->objects.at;
    size_t first = first_of(&walk->objects);
    for (size_t i = 0; i < walk->ordered; i++) test(&objects[walk->order[i]]);
    if (first) initialize(&objects[first], count, words, environment);
    for (initializer *const *it = __preinit_array_start; it != __preinit_array_end; it++)
        (*it)(count, words, environment);
    for (size_t i = 0; i < walk->ordered; i++)
        if (walk->order[i] != first)
            initialize(&objects[walk->order[i]], count, words, environment);
}

/* Returns the next finalizer, or 0 if all finalizers have been called. */
static uintptr_t next_finalizer(struct walk *walk) {
    while (!walk->finalizers.count && !walk->last && walk->ordered) {
        const struct rlibreg_object *it = &walk->objects.at[walk->order[--walk->ordered]];
        walk->finalizers = finalizers_of(it);
        walk->last = function_of(it, DT_FINI, "DT_FINI");
    }
    if (walk->finalizers.count) return walk->finalizers.at[--walk->finalizers.count];
    uintptr_t last = walk->last;
    walk->last = 0;
    return last;
}

/* Each finalizer is called once, even if one of them ends the program. */
void rlibreg_finalize(void) {
    uintptr_t it;
    while ((it = next_finalizer(walked))) ((finalizer *)it)();
}

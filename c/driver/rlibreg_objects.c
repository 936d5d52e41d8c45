/* Finds the objects of a bound program in memory.
 *
 * The first object is the program. Each other object lies at the least multiple of its unit that
 * isn't below the end of the object before it (COMMANDS, `bind`). The unit isn't known before the
 * object is found, so each possible unit is tried, with one place for each unit. A library is found
 * if its memory begins with its ELF header, as linkers make it. This works under rlibreg-run and in
 * a file of `rlibreg-tool executable`.
 *
 * Under musl's loader, which starts programs where they are built, the objects are those in the
 * list to which DT_DEBUG points. */
#define _GNU_SOURCE
#include "rlibreg_objects.h"

#include <link.h>
#include <string.h>
#include <sys/auxv.h>
#include <sys/mman.h>
#include <unistd.h>

enum { PAGE = 4096, MOST = 2049 }; /* a registry has up to 2,048 libraries */
#define END_OF_MEMORY ((uintptr_t)1 << 47)
#define WRONG_HEADERS "not found, or its memory doesn't begin with its headers: "

#pragma GCC visibility push(hidden)
extern const Elf64_Ehdr __ehdr_start __attribute__((weak));
extern Elf64_Dyn _DYNAMIC[];
#pragma GCC visibility pop

struct table {
    size_t count;
    struct rlibreg_object at[MOST];
    const struct rlibreg_object *by_name[MOST]; /* the libraries that have a name, sorted by it */
    size_t named;
    const Elf64_Phdr *headers; /* the program headers of a file that has all objects, or null */
    size_t header_count;
};
static struct table *found; /* null until the objects are found */

static _Noreturn void fail(const char *why, const char *name) {
    const char *parts[] = { "rlibreg: ", why, name, "\n" };
    for (size_t i = 0; i < sizeof parts / sizeof *parts; i++)
        if (write(2, parts[i], strlen(parts[i])) < 0) break;
    _exit(127);
}

/* ---- Memory that may be read */

/* Sets `headers` if the program runs as a file of `rlibreg-tool executable`. Then the kernel
 * reports the file's program headers instead of the program's own, and each page of an object is in
 * one of its PT_LOADs. */
static void find_headers(struct table *all) {
    const Elf64_Phdr *headers = (const Elf64_Phdr *)getauxval(AT_PHDR);
    if (headers == all->at[0].headers) return;
    all->headers = headers;
    all->header_count = getauxval(AT_PHNUM);
}

static int is_page_mapped(const struct table *all, uintptr_t page) {
    unsigned char in_memory;
    if (!all->headers) return !mincore((void *)page, PAGE, &in_memory);
    for (const Elf64_Phdr *it = all->headers; it < all->headers + all->header_count; it++)
        if (it->p_type == PT_LOAD && page + PAGE > it->p_vaddr && page < it->p_vaddr + it->p_memsz)
            return 1;
    return 0;
}

static int is_mapped(const struct table *all, uintptr_t from, size_t size) {
    for (uintptr_t page = from & -(uintptr_t)PAGE; page < from + size; page += PAGE)
        if (!is_page_mapped(all, page)) return 0;
    return 1;
}

/* ---- One object */

static uintptr_t rounded(uintptr_t address, uintptr_t unit) { return (address + unit - 1) & -unit; }

/* Returns the unit of an object: the greatest of a page and the alignments of its PT_LOADs. */
static uintptr_t unit_of(const struct rlibreg_object *it) {
    uintptr_t unit = PAGE;
    for (size_t i = 0; i < it->header_count; i++)
        if (it->headers[i].p_type == PT_LOAD && it->headers[i].p_align > unit)
            unit = it->headers[i].p_align;
    return unit;
}

/* Reads the dynamic section of the object, and sets the members of `it` that come from there. */
static void read_dynamic(struct rlibreg_object *it) {
    uintptr_t name = 0;
    it->name = "";
    for (const Elf64_Dyn *entry = it->dynamic; entry->d_tag != DT_NULL; entry++) {
        uintptr_t address = it->base + entry->d_un.d_ptr;
        switch (entry->d_tag) {
        case DT_STRTAB:
            it->strings = (const char *)address;
            break;
        case DT_SYMTAB:
            it->symbols = (const Elf64_Sym *)address;
            break;
        case DT_HASH:
            it->hash = (const Elf64_Word *)address;
            break;
        case DT_SONAME:
            name = entry->d_un.d_val;
            break;
        }
    }
    if (name && it->strings) it->name = it->strings + name;
}

/* Reads the program headers of an object whose base is known. */
static void read_headers(struct rlibreg_object *it, const Elf64_Ehdr *file) {
    it->headers = (const Elf64_Phdr *)((const char *)file + file->e_phoff);
    it->header_count = file->e_phnum;
    for (size_t i = 0; i < it->header_count; i++) {
        const Elf64_Phdr *header = &it->headers[i];
        uintptr_t end = it->base + header->p_vaddr + header->p_memsz;
        if (header->p_type == PT_LOAD && end > it->end) it->end = end;
        if (header->p_type == PT_DYNAMIC)
            it->dynamic = (const Elf64_Dyn *)(it->base + header->p_vaddr);
    }
}

/* Reads the library whose base is `base`. Returns 0 if there is none. */
static int read_library(const struct table *all, struct rlibreg_object *it, uintptr_t base) {
    const Elf64_Ehdr *file = (const Elf64_Ehdr *)base;
    static const unsigned char begin[] = {
        0x7f, 'E', 'L', 'F', ELFCLASS64, ELFDATA2LSB, EV_CURRENT
    };
    *it = (struct rlibreg_object){ .base = base };
    if (base == getauxval(AT_SYSINFO_EHDR) || !is_mapped(all, base, sizeof *file)) return 0;
    if (memcmp(file->e_ident, begin, sizeof begin) || file->e_type != ET_DYN ||
        file->e_machine != EM_X86_64 || file->e_phentsize != sizeof(Elf64_Phdr) ||
        file->e_phoff > END_OF_MEMORY)
        return 0;
    if (!is_mapped(all, base + file->e_phoff, file->e_phnum * sizeof(Elf64_Phdr))) return 0;
    read_headers(it, file);
    if (!it->dynamic || !is_mapped(all, (uintptr_t)it->dynamic, sizeof *it->dynamic)) return 0;
    read_dynamic(it);
    return 1;
}

/* ---- All objects */

/* Returns the number of libraries whose names come before `name`. */
static size_t place_of(const struct table *all, const char *name) {
    size_t from = 0, to = all->named;
    while (from < to) {
        size_t middle = from + (to - from) / 2;
        if (strcmp(all->by_name[middle]->name, name) < 0)
            from = middle + 1;
        else
            to = middle;
    }
    return from;
}

static const struct rlibreg_object *named(const struct table *all, const char *name) {
    size_t place = place_of(all, name);
    if (place == all->named || strcmp(all->by_name[place]->name, name)) return NULL;
    return all->by_name[place];
}

static void add(struct table *all, const struct rlibreg_object *it) {
    if (all->count == MOST) fail("too many libraries", "");
    all->at[all->count] = *it;
    if (*it->name && !named(all, it->name)) {
        const struct rlibreg_object **place = all->by_name + place_of(all, it->name);
        memmove(place + 1, place, (size_t)(all->by_name + all->named++ - place) * sizeof *place);
        *place = &all->at[all->count];
    }
    all->count++;
}

static void add_program(struct table *all) {
    struct rlibreg_object it = { 0 };
    if (!&__ehdr_start) fail("the program's headers aren't in its memory", "");
    const Elf64_Phdr *header =
        (const Elf64_Phdr *)((const char *)&__ehdr_start + __ehdr_start.e_phoff);
    while (header->p_type != PT_DYNAMIC) header++; /* each program that is accepted has a
                                                    * PT_DYNAMIC */
    it.base = (uintptr_t)_DYNAMIC - header->p_vaddr;
    read_headers(&it, &__ehdr_start);
    read_dynamic(&it);
    it.name = "";
    add(all, &it);
}

/* Adds the objects in the list of musl's loader, except the kernel's object and the loader, which
 * has the list in its own memory. */
static void add_listed(struct table *all, const struct r_debug *list) {
    struct rlibreg_object it;
    for (const struct link_map *map = list->r_map ? list->r_map->l_next : NULL; map;
         map = map->l_next) {
        if (map->l_addr == getauxval(AT_SYSINFO_EHDR)) continue;
        if (!read_library(all, &it, map->l_addr)) fail(WRONG_HEADERS, map->l_name);
        if ((uintptr_t)list < it.base || (uintptr_t)list >= it.end) add(all, &it);
    }
}

/* Reads the object that is placed after an object that ends at `end`. Returns 0 if there is none.
 */
static int read_next(const struct table *all, struct rlibreg_object *it, uintptr_t end) {
    for (uintptr_t unit = PAGE; rounded(end, unit) < END_OF_MEMORY; unit *= 2)
        if (read_library(all, it, rounded(end, unit)) && unit_of(it) == unit && *it->name) return 1;
    return 0;
}

static void add_placed(struct table *all) {
    struct rlibreg_object it;
    find_headers(all);
    while (read_next(all, &it, all->at[all->count - 1].end)) add(all, &it);
}

/* Ends the process if a library that an object needs isn't in the table. */
static void test_needed(const struct table *all) {
    for (size_t i = 0; i < all->count; i++)
        for (const Elf64_Dyn *it = all->at[i].dynamic; it->d_tag != DT_NULL; it++)
            if (it->d_tag == DT_NEEDED && !named(all, all->at[i].strings + it->d_un.d_val))
                fail(WRONG_HEADERS, all->at[i].strings + it->d_un.d_val);
}

static struct table *find_objects(void) {
    struct table *all =
        mmap(NULL, sizeof *all, PROT_READ | PROT_WRITE, MAP_PRIVATE | MAP_ANONYMOUS, -1, 0);
    if (all == MAP_FAILED) fail("memory was refused", "");
    add_program(all);
    uint64_t list = rlibreg_tag_of(&all->at[0], DT_DEBUG, 0);
    if (list)
        add_listed(all, (const struct r_debug *)list);
    else
        add_placed(all);
    if (!list) test_needed(all);
    return all;
}

/* Returns the table of all objects. If two threads make it at the same time, both return the same
 * table. */
static const struct table *table(void) {
    struct table *it = __atomic_load_n(&found, __ATOMIC_ACQUIRE), *none = NULL;
    if (it) return it;
    it = find_objects();
    if (__atomic_compare_exchange_n(&found, &none, it, 0, __ATOMIC_ACQ_REL, __ATOMIC_ACQUIRE))
        return it;
    munmap(it, sizeof *it);
    return none;
}

struct rlibreg_objects rlibreg_all_objects(void) {
    const struct table *all = table();
    return (struct rlibreg_objects){ all->count, all->at };
}

const struct rlibreg_object *rlibreg_object_named(const char *soname) {
    return named(table(), soname);
}

const struct rlibreg_object *rlibreg_object_at(uintptr_t address) {
    const struct table *all = table();
    for (size_t i = 0; i < all->count; i++) {
        const struct rlibreg_object *it = &all->at[i];
        for (size_t k = 0; address >= it->base && address < it->end && k < it->header_count; k++)
            if (it->headers[k].p_type == PT_LOAD &&
                address - it->base - it->headers[k].p_vaddr < it->headers[k].p_memsz)
                return it;
    }
    return NULL;
}

uint64_t rlibreg_tag_of(const struct rlibreg_object *it, int64_t tag, uint64_t otherwise) {
    const Elf64_Dyn *entry = it->dynamic;
    while (entry->d_tag != DT_NULL && entry->d_tag != tag) entry++;
    return entry->d_tag == DT_NULL ? otherwise : entry->d_un.d_val;
}

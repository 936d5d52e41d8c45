/* dlopen(3) and the related calls, for the objects of the bound program. Each of these objects can be opened
 * by its SONAME, or by a path that ends in its SONAME. Nothing else can be opened. All objects are in memory
 * already, and their constructors have run. Nothing is ever unloaded, so a closed handle still works.
 *
 * musl's dlerror works together with these functions. So does musl's dlinfo, which takes a handle for a
 * `struct link_map`. If all of musl is linked, its dlsym and dlclose replace the weak ones of this file,
 * and call the hidden functions of this file. */
#define _GNU_SOURCE
#include "rlibreg_objects.h"

#include <dlfcn.h>
#include <link.h>
#include <string.h>
#include <sys/auxv.h>

enum { MOST = 2049 }; /* a registry has up to 2,048 libraries */

#pragma GCC visibility push(hidden)
extern void __dl_seterr(const char *format, ...); /* sets what dlerror returns; part of libc.a */
int __dl_invalid_handle(void *handle);
void *__dlsym(void *restrict handle, const char *restrict name, void *restrict caller);
#pragma GCC visibility pop

/* ---- Handles: the handle of object number i is the address of maps[i] */

static struct link_map maps[MOST];

static const char *path_of(const struct rlibreg_object *it) {
    if (*it->name || it != rlibreg_all_objects().at) return it->name;
    const char *path = (const char *)getauxval(AT_EXECFN);
    return path ? path : "";
}

/* Returns the handle of an object. Fills all entries of `maps` each time. Several threads may do
 * this at the same time, because they write the same values. */
static struct link_map *handle_of(const struct rlibreg_object *it) {
    struct rlibreg_objects all = rlibreg_all_objects();
    for (size_t i = 0; i < all.count; i++) {
        maps[i].l_addr = all.at[i].base;
        maps[i].l_name = (char *)path_of(&all.at[i]);
        maps[i].l_ld = (Elf64_Dyn *)all.at[i].dynamic;
        maps[i].l_next = i + 1 < all.count ? &maps[i + 1] : NULL;
        maps[i].l_prev = i ? &maps[i - 1] : NULL;
    }
    return &maps[it - all.at];
}

/* Returns the object of a handle, or null. */
static const struct rlibreg_object *object_of(const void *handle) {
    struct rlibreg_objects all = rlibreg_all_objects();
    uintptr_t offset = (uintptr_t)handle - (uintptr_t)maps;
    size_t number = offset / sizeof *maps;
    return offset % sizeof *maps || number >= all.count ? NULL : &all.at[number];
}

int __dl_invalid_handle(void *handle) {
    if (object_of(handle)) return 0;
    __dl_seterr("Invalid library handle %p", handle);
    return 1;
}

void *dlopen(const char *path, int mode) {
    (void)mode;
    if (!path) return handle_of(rlibreg_all_objects().at);
    const char *slash = strrchr(path, '/'), *name = slash ? slash + 1 : path;
    const struct rlibreg_object *it = *name ? rlibreg_object_named(name) : NULL;
    if (it) return handle_of(it);
    __dl_seterr("%s: no library of this name is bound to the program, which rlibreg-gcc links with "
                "--module FILE",
                path);
    return NULL;
}

__attribute__((weak)) int dlclose(void *handle) { return __dl_invalid_handle(handle); }

/* ---- Names */

/* The hash function of a SYSV table: gABI chapter 5, "Hash Table". */
static Elf64_Word hash_of(const char *name) {
    Elf64_Word hash = 0;
    for (; *name; name++) {
        hash = (hash << 4) + (unsigned char)*name;
        hash = (hash ^ (hash >> 24 & 0xf0)) & 0x0fffffff;
    }
    return hash;
}

static int is_exported(const Elf64_Sym *it) {
    unsigned bind = ELF64_ST_BIND(it->st_info), seen = ELF64_ST_VISIBILITY(it->st_other);
    return it->st_shndx != SHN_UNDEF && (bind == STB_GLOBAL || bind == STB_WEAK) &&
        (seen == STV_DEFAULT || seen == STV_PROTECTED) && ELF64_ST_TYPE(it->st_info) != STT_TLS;
}

static void *address_of(const struct rlibreg_object *it, const Elf64_Sym *symbol) {
    return (void *)((symbol->st_shndx == SHN_ABS ? 0 : it->base) + symbol->st_value);
}

/* Returns the symbol that an object exports under a name, or null. A library without a SYSV table, which
 * only musl's loader accepts, exports nothing here. */
static const Elf64_Sym *export_of(const struct rlibreg_object *it, const char *name, Elf64_Word hash) {
    if (!it->hash || !it->hash[0]) return NULL;
    const Elf64_Word *buckets = it->hash + 2, *chains = buckets + it->hash[0];
    for (Elf64_Word i = buckets[hash % it->hash[0]]; i; i = chains[i])
        if (is_exported(&it->symbols[i]) && !strcmp(it->strings + it->symbols[i].st_name, name))
            return &it->symbols[i];
    return NULL;
}

/* Finds a name in the objects from number `from` on, in load order. Returns whether one of them
 * exports the name. */
static int find_from(size_t from, const char *name, void **address) {
    struct rlibreg_objects all = rlibreg_all_objects();
    Elf64_Word hash = hash_of(name);
    for (size_t i = from; i < all.count; i++) {
        const Elf64_Sym *symbol = export_of(&all.at[i], name, hash);
        if (symbol) *address = address_of(&all.at[i], symbol);
        if (symbol) return 1;
    }
    return 0;
}

/* The numbers of the libraries that a search goes through, each number once. */
struct search {
    size_t count;
    uint16_t order[MOST];
    char has[MOST];
};

static void append(struct search *it, const struct rlibreg_object *object) {
    size_t number = (size_t)(object - rlibreg_all_objects().at);
    if (it->has[number]) return;
    it->has[number] = 1;
    it->order[it->count++] = (uint16_t)number;
}

/* Finds a name in an object, and then in the libraries that the object needs, level by level. */
static int find_below(const struct rlibreg_object *first, const char *name, void **address) {
    struct search search = { 0 };
    Elf64_Word hash = hash_of(name);
    append(&search, first);
    for (size_t i = 0; i < search.count; i++) {
        const struct rlibreg_object *it = &rlibreg_all_objects().at[search.order[i]], *needed;
        const Elf64_Sym *symbol = export_of(it, name, hash);
        if (symbol) *address = address_of(it, symbol);
        if (symbol) return 1;
        for (const Elf64_Dyn *entry = it->dynamic; entry->d_tag != DT_NULL; entry++)
            if (entry->d_tag == DT_NEEDED) {
                needed = rlibreg_object_named(it->strings + entry->d_un.d_val);
                if (needed) append(&search, needed);
            }
    }
    return 0;
}

/* `caller` is an address in the object that calls dlsym. */
void *__dlsym(void *restrict handle, const char *restrict name, void *restrict caller) {
    struct rlibreg_objects all = rlibreg_all_objects();
    const struct rlibreg_object *it;
    void *address = NULL;
    int is_found;
    if (handle == RTLD_NEXT) {
        it = rlibreg_object_at((uintptr_t)caller);
        is_found = it && find_from((size_t)(it - all.at) + 1, name, &address);
    } else if (handle == RTLD_DEFAULT || handle == &maps[0]) {
        is_found = find_from(0, name, &address);
    } else {
        it = object_of(handle);
        if (!it) return __dl_invalid_handle(handle), NULL;
        is_found = find_below(it, name, &address);
    }
    if (!is_found) __dl_seterr("Symbol not found: %s", name);
    return address;
}

__attribute__((weak)) void *dlsym(void *restrict handle, const char *restrict name) {
    return __dlsym(handle, name, __builtin_return_address(0));
}

/* ---- Objects */

/* Returns the export to which an address belongs, or null. It is the last export that begins at or before
 * the address, unless this export ends before the address. */
static const Elf64_Sym *export_at(const struct rlibreg_object *it, uintptr_t address) {
    const Elf64_Sym *nearest = NULL;
    uintptr_t from = 0;
    for (Elf64_Word i = 1; it->hash && i < it->hash[1]; i++) {
        uintptr_t start = (uintptr_t)address_of(it, &it->symbols[i]);
        if (!is_exported(&it->symbols[i]) || start > address || start < from) continue;
        nearest = &it->symbols[i];
        from = start;
    }
    return nearest && nearest->st_size && address - from >= nearest->st_size ? NULL : nearest;
}

int dladdr(const void *address, Dl_info *info) {
    const struct rlibreg_object *it = rlibreg_object_at((uintptr_t)address);
    if (!it) return 0;
    const Elf64_Sym *symbol = export_at(it, (uintptr_t)address);
    *info = (Dl_info){ .dli_fname = path_of(it), .dli_fbase = (void *)it->base };
    if (symbol) {
        info->dli_sname = it->strings + symbol->st_name;
        info->dli_saddr = address_of(it, symbol);
    }
    return 1;
}

int dl_iterate_phdr(int (*call)(struct dl_phdr_info *, size_t, void *), void *data) {
    struct rlibreg_objects all = rlibreg_all_objects();
    int answer = 0;
    for (size_t i = 0; i < all.count && !answer; i++) {
        struct dl_phdr_info info = { .dlpi_addr = all.at[i].base,
                                     .dlpi_name = path_of(&all.at[i]),
                                     .dlpi_phdr = all.at[i].headers,
                                     .dlpi_phnum = (Elf64_Half)all.at[i].header_count,
                                     .dlpi_adds = all.count };
        answer = call(&info, sizeof info, data);
    }
    return answer;
}

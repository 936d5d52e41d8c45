/* The objects of a bound program: the program itself and its libraries. A program that rlibreg-gcc
 * links finds them in its own memory. */
#ifndef RLIBREG_OBJECTS_H
#define RLIBREG_OBJECTS_H

#include <elf.h>
#include <stddef.h>
#include <stdint.h>

#pragma GCC visibility push(hidden)

struct rlibreg_object {
    uintptr_t base;            /* number that is added to the addresses of its file */
    uintptr_t end;             /* address at which its memory ends; objects don't overlap */
    const Elf64_Phdr *headers; /* its program headers */
    size_t header_count;
    const Elf64_Dyn *dynamic; /* its dynamic section */
    const char *name;         /* its DT_SONAME; "" for the program, and for a library without one */
    const char *strings;      /* DT_STRTAB */
    const Elf64_Sym *symbols; /* DT_SYMTAB */
    const Elf64_Word *hash;   /* DT_HASH: the numbers of buckets and of symbols, buckets, chain */
};

/* All objects, in load order: the first is the program. */
struct rlibreg_objects {
    size_t count;
    const struct rlibreg_object *at;
};

/* Returns the objects. The first call finds them. Several threads may make this call at the same
 * time, even in a child after fork(2). If the libraries that the program needs can't be found, ends
 * the process with a message. */
struct rlibreg_objects rlibreg_all_objects(void);

/* Returns the library of a SONAME, or null. */
const struct rlibreg_object *rlibreg_object_named(const char *soname);

/* Returns the object that has an address in a PT_LOAD, or null. */
const struct rlibreg_object *rlibreg_object_at(uintptr_t address);

/* Returns the value of an object's first entry with a tag in its dynamic section, or `otherwise`.
 * If the value is an address, it doesn't include the object's base. */
uint64_t rlibreg_tag_of(const struct rlibreg_object *, int64_t tag, uint64_t otherwise);

#pragma GCC visibility pop

#endif

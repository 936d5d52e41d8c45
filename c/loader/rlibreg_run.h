/* The declarations that the parts of the loader rlibreg-run share. Nothing here is for users. */
#ifndef RLIBREG_RUN_H
#define RLIBREG_RUN_H

#include "rlibreg.h"

#include <elf.h>
#include <sys/stat.h>

enum {
    REFUSED = 125,  /* the bind is refused, or its image is one that the loader doesn't start */
    FAILED = 126,   /* a file can't be read, or needed memory is refused */
    BAD_WORDS = 127 /* the arguments have a form that the loader doesn't accept */
};

#define PAGE ((uint64_t)4096)

/* The standard streams have the numbers below this one. */
enum { STREAMS = 3 };

/* Addresses of functions. Each lies in the code of the object that names the function. */
struct calls {
    uint64_t *at;
    size_t count, room;
};

struct program {
    const char *path;
    int fd;            /* descriptor of its file, while the file is being read */
    struct stat found; /* state of the file when it was opened */
    uint8_t *bytes;    /* bytes of the file */
    size_t length;
    uint64_t base;         /* base at which it is bound */
    int has_base;          /* whether the user named the base */
    int may_be_both;       /* whether memory may be both writable and executable */
    int has_wait;          /* whether the user limits the wait for DISK */
    uint32_t wait;         /* the limit in seconds */
    rlibreg_image image;   /* image of the program and its libraries; after the start, only the
                            * objects and the libraries' names */
    rlibreg_object object; /* first object of the image: the program itself */
    struct calls initializers; /* in the order in which they are called */
    struct calls finalizers;   /* in the reverse of the order in which they are called */
    int is_early;              /* whether the loader's C library isn't set up yet */
};

/* End the process with a message. fail ends it with FAILED, and prints the text of errno after
 * `what`; give_up ends it with `status`, and prints `why`. */
_Noreturn void fail(const char *what);
_Noreturn void give_up(int status, const char *what, const char *why);

/* ---- The program's file (rlibreg_run_program.c) */

/* open_program opens the program's file, if the user may execute it. read_program reads all of it.
 * Each ends the process if it fails. */
void open_program(struct program *it);
void read_program(struct program *it);

/* Returns the unit of the program in bytes: its base must be a multiple of the unit. Before the
 * program is bound, its file may have any bytes. Until then, use the result only to bind the
 * program; the bind tests the bytes. */
uint64_t unit_of(const struct program *it);

/* ---- Memory (rlibreg_run_image.c, rlibreg_run_base.c) */

/* map_program binds the program against the registry, and maps the image, which can be read and
 * written until it is protected. protect_program sets the permissions of its pages. */
void map_program(struct program *it, rlibreg *registry, const char *disk);
void protect_program(const struct program *it);

/* Asks the system to provide all pages together that are about to be written. Providing them one by
 * one takes longer than writing the bytes. */
void expect_bytes(uint64_t from, uint64_t length);

/* The pages that are no longer written after the object is relocated, from the address `from` up to
 * `to`. */
struct pages {
    uint64_t from, to;
};

/* An object of a program, for an action on its pages. each_pages calls the action for the pages of
 * all objects, in the order of their addresses, with the permissions `how` that the pages get. For
 * a page that several segments share, it calls the action once for each of them, with the
 * permissions of that segment and of the previous ones. */
struct part {
    const struct program *program;
    const rlibreg_object *object;
    struct pages fixed;
    void *context;
};
typedef void page_action(const struct part *part, uint64_t from, uint64_t to, int how);
void each_pages(const struct program *program, page_action *action, void *context);

/* If the loader chooses the base itself, it tries at most MOST_BASES bases, and the image must end
 * at or below END_OF_BASES. base_of_try returns the base of try number `number`. */
enum { MOST_BASES = 16 };
#define END_OF_BASES ((uint64_t)1 << 46)
uint64_t base_of_try(const struct program *it, int number);

/* ---- The objects of the image, read from the bytes of their segments (rlibreg_run_objects.c) */

/* Returns the name of an object for a message. */
const char *name_of(const struct program *it, const rlibreg_object *object);

/* Returns whether an address lies in memory of the object that may be executed. */
int is_code(const rlibreg_image *image, const rlibreg_object *object, uint64_t address);

/* Returns the bytes of the object's memory from `address` to the end of its segment, with their
 * number in `length`. Returns null if the address lies in none of its segments. */
const uint8_t *memory_at(const rlibreg_image *image, const rlibreg_object *object, uint64_t address,
                         uint64_t *length);

/* Reads program header number `number` of an object into `one`. Returns whether the object's memory
 * has that header. */
int header_at(const rlibreg_image *image, const rlibreg_object *object, size_t number,
              Elf64_Phdr *one);

/* Returns the pages of an object that are no longer written once the object is relocated. */
struct pages fixed_pages(const rlibreg_image *image, const rlibreg_object *object);

/* A dynamic section up to its DT_NULL. dynamic_of returns the dynamic section of an object, and
 * entry_at returns entry number `number` of a section. has_tag returns whether an entry has the tag
 * `tag`, and sets `value` to the value of the last such entry. */
struct dynamic {
    const uint8_t *bytes;
    size_t count;
};
struct dynamic dynamic_of(const rlibreg_image *image, const rlibreg_object *object);
Elf64_Dyn entry_at(const struct dynamic *it, size_t number);
int has_tag(const struct dynamic *it, int64_t tag, uint64_t *value);

/* ---- Initializers (rlibreg_run_order.c, rlibreg_run_calls.c) */

/* Returns the numbers of the libraries in the order in which they are initialized. The caller frees
 * the list. */
size_t *order_of_libraries(const struct program *it);

/* Finds the functions that are called before and after the program, or refuses to start the
 * program. */
void find_calls(struct program *it);

/* ---- The start (rlibreg_run_debugger.c, rlibreg_run_start.c) */

/* room_of_list returns the size in bytes of the list of objects that a debugger reads.
 * tell_debugger makes the list in `room` and shows it to the debugger. The list and the program's
 * path must stay at their addresses. If the path is null, tell_debugger does nothing. */
size_t room_of_list(const struct program *it);
void tell_debugger(const struct program *it, void *room, char *path);

/* Starts the program, whose file is still open. The program gets the environment `environment`.
 * `kernels` is the environment at the address that the kernel chose; the auxiliary vector follows
 * it. The two may differ, because code that is linked into this process may have made another
 * environment. */
_Noreturn void start(struct program *it, char **words, char **environment, char **kernels);

/* Returns the value of entry `number` of the kernel's auxiliary vector, or 0 if there is no such
 * entry. */
uint64_t auxiliary_value(char **kernels, uint64_t number);

#endif

/* Makes the program's stack, calls the libraries' initializers, and jumps to the program's
 * entry. */
#define _GNU_SOURCE
#include "rlibreg_run_kernel.h"
#include "rlibreg_run.h"

#include <alloca.h>
#include <errno.h>
#include <limits.h>
#include <sys/mman.h>

static size_t words_in(char **list) {
    size_t count = 0;
    while (list[count]) count++;
    return count;
}

/* ---- The auxiliary vector */

/* Returns the auxiliary vector that the kernel gave this process. It follows the environment. If
 * AT_SECURE is set, this process's C library has removed variables from the environment at its
 * start. Then there is one additional null before the vector for each removed variable. The vector
 * itself doesn't begin with a null. */
static const Elf64_auxv_t *vector_behind(char **environment) {
    while (*environment) environment++;
    while (!*environment) environment++;
    return (const Elf64_auxv_t *)environment;
}

/* Returns the number of entries of the vector, including the last. */
static size_t entries_in(const Elf64_auxv_t *vector) {
    size_t count = 1;
    for (; vector->a_type != AT_NULL; vector++) count++;
    return count;
}

uint64_t auxiliary_value(char **kernels, uint64_t number) {
    const Elf64_auxv_t *it = vector_behind(kernels);
    while (it->a_type != AT_NULL && it->a_type != number) it++;
    return it->a_type == AT_NULL ? 0 : it->a_un.a_val;
}

/* Returns an entry of the vector for the program. An entry of the kernel that describes this loader
 * is replaced by one that describes the program. */
static Elf64_auxv_t entry_for(const struct program *it, Elf64_auxv_t entry) {
    switch (entry.a_type) {
    case AT_PHDR:
        entry.a_un.a_val = it->object.headers;
        break;
    case AT_PHNUM:
        entry.a_un.a_val = it->object.headers ? it->object.header_count : 0;
        break;
    case AT_PHENT:
        entry.a_un.a_val = sizeof(Elf64_Phdr);
        break;
    case AT_BASE:
        entry.a_un.a_val = 0;
        break;
    case AT_ENTRY:
        entry.a_un.a_val = it->object.entry;
        break;
    case AT_EXECFN:
        entry.a_un.a_val = (uint64_t)it->path;
        break;
    }
    return entry;
}

/* ---- Calls */

static struct calls at_the_end;

/* The program calls this. At that time the thread-local data are the program's own, so nothing of
 * this process's C library may be used. Each finalizer is called once, even if one of them ends the
 * program. */
static void call_finalizers(void) {
    typedef void finalizer(void);
    while (at_the_end.count) ((finalizer *)at_the_end.at[--at_the_end.count])();
}

static void call_initializers(const struct program *it, uint64_t *stack) {
    typedef void initializer(int, char **, char **);
    int argc = (int)stack[0];
    char **words = (char **)(stack + 1);
    for (size_t i = 0; i < it->initializers.count; i++)
        ((initializer *)it->initializers.at[i])(argc, words, words + argc + 1);
}

/* Sets up the thread's block in the same way as a C library. Code that is compiled with
 * -fstack-protector looks for its secret in this block, in libraries and in a program without its
 * own C library. As in other loaders, the secret is taken from the kernel's random bytes, and its
 * lowest byte is zero. */
enum { OWN = 0, SECRET = 5, THREAD = 8 }; /* indexes of its words, and their number */
static void take_thread(uint64_t *block, const uint64_t *random) {
    memset(block, 0, THREAD * sizeof *block);
    block[OWN] = (uint64_t)block;
    block[SECRET] = random ? *random & ~(uint64_t)0xff : 0;
    kernel_take_thread(block);
}

/* ---- */

static void take_name(const char *path) {
    const char *name = path;
    for (; *path; path++)
        if (*path == '/') name = path + 1;
    kernel_take_name(name);
}

/* Fills the stack with the data that the kernel puts onto the stack of a program. */
static void fill_stack(const struct program *it, uint64_t *at, char **words, char **environment,
                       const Elf64_auxv_t *vector) {
    size_t argc = words_in(words), variables = words_in(environment), entries = entries_in(vector);
    *at++ = argc;
    for (size_t i = 0; i <= argc; i++) *at++ = (uint64_t)words[i];
    for (size_t i = 0; i <= variables; i++) *at++ = (uint64_t)environment[i];
    for (size_t i = 0; i < entries; i++) {
        Elf64_auxv_t entry = entry_for(it, vector[i]);
        memcpy(at, &entry, sizeof entry);
        at += sizeof entry / sizeof *at;
    }
}

/* Allocates memory that is never freed. Ends the process if it is refused. */
static void *room_for(size_t bytes) {
    int64_t map = kernel_map(0, bytes, PROT_READ | PROT_WRITE, MAP_PRIVATE | MAP_ANONYMOUS, -1, 0);
    if (map < 0) kernel_end_process(FAILED, "rlibreg-run: memory: Cannot allocate memory\n");
    return (void *)map;
}

/* Writes the path of the current folder to `to`, with a slash at its end, if the program's path is
 * relative. Returns the number of bytes that were written, or an error as a negative number. */
static int64_t read_folder(const struct program *it, char *to, size_t room) {
    if (*it->path == '/') return 0;
    int64_t length = kernel_folder(to, room); /* with the byte 0 at the end */
    if (length > 0 && *to != '/') return -ENOENT; /* the folder can't be reached from the root */
    if (length > 0) to[length - 1] = '/';
    return length;
}

/* Returns a copy of the program's path, made absolute, or null if the system doesn't report the
 * current folder. If the copy is short enough, it is in `room`. /proc/self/fd has the path of the
 * open file too, but reading it takes longer than the rest of this function. */
static char *path_of(const struct program *it, char *room, size_t length) {
    size_t own = strlen(it->path) + 1;
    int64_t folder = own < length ? read_folder(it, room, length - own) : -ERANGE;
    if (folder == -ERANGE) {
        room = room_for(PATH_MAX + own);
        folder = read_folder(it, room, PATH_MAX);
    }
    if (folder < 0) return NULL;
    memcpy(room + folder, it->path, own);
    return room;
}

/* The program's stack lies below the data that this process has on its own stack, and grows down
 * from there. */
void start(struct program *it, char **words, char **environment, char **kernels) {
    enum { LITTLE = 8 << 10, SHORT = 256 };
    char few[SHORT];
    uint64_t thread[THREAD];
    const Elf64_auxv_t *vector = vector_behind(kernels);
    size_t told = room_of_list(it), pointers = words_in(words) + 1 + words_in(environment) + 1;
    void *list = told <= LITTLE ? alloca(told) : room_for(told);
    size_t room = 8 * (1 + pointers) + sizeof *vector * entries_in(vector);
    uint64_t *stack = (uint64_t *)(((uint64_t)alloca(room + 16) + 15) & ~(uint64_t)15);
    take_name(it->path);
    tell_debugger(it, list, path_of(it, few, sizeof few));
    kernel_close(it->fd);
    fill_stack(it, stack, words, environment, vector);
    if (it->finalizers.count) at_the_end = it->finalizers;
    if (it->is_early) take_thread(thread, (const uint64_t *)auxiliary_value(kernels, AT_RANDOM));
    call_initializers(it, stack);
    __asm__ volatile("mov %0, %%rsp\n\t"
                     "xor %%ebp, %%ebp\n\t"
                     "jmp *%1"
                     :
                     : "r"(stack), "a"(it->object.entry),
                       "d"(it->finalizers.count ? call_finalizers : NULL)
                     : "memory");
    __builtin_unreachable();
}

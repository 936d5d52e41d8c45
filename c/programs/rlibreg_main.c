/* Makes the stack of a program large enough before its `main` begins. build.sh links this over the
 * program's `main`, and defines OUT_OF_MEMORY, STREAM and MESSAGE. */
#define _GNU_SOURCE
#include "rlibreg_stack.h"
#ifdef TOOL
#include "rlibreg_tool_words.h"
#endif

#include <sys/syscall.h>
#include <unistd.h>

/* Number of bytes of stack. Commands need up to some 210 KiB. */
enum { STACK = 384 << 10 };

int __real_main(int argc, char **argv, char **environment);
int __wrap_main(int argc, char **argv, char **environment);

#ifndef __GLIBC__
/* The runtime of the program's language calls statx, which musl before 1.2.5 doesn't have. */
int statx(int folder, const char *path, int flags, unsigned mask, void *found);

int statx(int folder, const char *path, int flags, unsigned mask, void *found) {
    return (int)syscall(SYS_statx, folder, path, flags, mask, found);
}

/* The runtime of the program's language reads the arguments in an initializer, but only glibc
 * passes them to initializers. */
typedef void initializer(int argc, char **argv, char **environment);
extern initializer *__init_array_start[], *__init_array_end[];

static void give_words(int argc, char **argv, char **environment) {
    for (initializer **it = __init_array_start; it != __init_array_end; it++)
        (*it)(argc, argv, environment);
}
#endif

int __wrap_main(int argc, char **argv, char **environment) {
    struct refused_stack refused = { OUT_OF_MEMORY, STREAM, MESSAGE };
    if (rlibreg_names_stream(STREAM, argv)) refused.message = "";
    rlibreg_grow_stack(STACK, refused);
#ifndef __GLIBC__
    give_words(argc, argv, environment);
#endif
#ifdef TOOL
    int status = rlibreg_tool_words(argc, argv);
    if (status >= 0) return status;
    return rlibreg_run_tool(argc, argv, __real_main, environment);
#else
    return __real_main(argc, argv, environment);
#endif
}

/* Starts from a kept image before the loader's C library is set up, because this setup takes longer
 * than the whole start. Leaves unusual cases to main, which tries the same again and reports what
 * was wrong. rlibreg_entry.c calls this. */
#define _GNU_SOURCE
#include "rlibreg_run_early.h"
#include "rlibreg_run_kernel.h"
#include "rlibreg_run_kept.h"

#include <fcntl.h>

/* If the stack may be STACK bytes long, and the data on it takes at most LITTLE bytes, the stack
 * can certainly grow enough: the kernel has made it 128 KiB longer than the arguments need. */
enum { STACK = 512 << 10, LITTLE = 16 << 10 };

static size_t pointers_in(char **words, char **environment) {
    size_t count = 0;
    while (*words++) count++;
    while (*environment++) count++;
    return count * sizeof *words;
}

/* Opens the program, if it is a regular file that the user may execute. Refuses if a standard
 * stream isn't open, because the program's file would become that stream. Returns 0 or -1. */
static int open_program_early(struct program *it) {
    it->fd = kernel_open(AT_FDCWD, it->path, O_RDONLY | O_CLOEXEC | O_NOCTTY | O_NONBLOCK);
    if (it->fd < 0) return -1;
    if (it->fd >= STREAMS && !kernel_fstat(it->fd, &it->found) && S_ISREG(it->found.st_mode) &&
        !kernel_may_execute(it->fd))
        return 0;
    kernel_close(it->fd);
    return -1;
}

void rlibreg_run_early(int argc, char **argv) {
    struct program program = { .is_early = 1 };
    struct keeping keeping = { 0 };
    char **kernels = argv + argc + 1;
    int next;
    if (!read_options(&program, &keeping, argc, argv, &next)) return;
    if (!keeping.path || keeping.says_more || auxiliary_value(kernels, AT_SECURE)) return;
    if (kernel_stack_limit() < STACK || pointers_in(argv, kernels) > LITTLE) return;
    program.path = argv[next + 1];
    keeping.user = (uid_t)auxiliary_value(kernels, AT_EUID);
    if (open_program_early(&program)) return;
    if (take_kept(&keeping, &program, argv[next])) {
        close_folder(&keeping);
        start(&program, argv + next + 1, kernels, kernels);
    }
    close_folder(&keeping);
    kernel_close(program.fd);
}

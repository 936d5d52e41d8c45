/* The entry of the loader and the programs, which runs before the entry of the C library. The start
 * of a static C library allocates memory. If memory is refused, the library ends the process by a
 * signal, or with a status of its own. So this entry asks the system for memory first. At this
 * point the C library hasn't started, and nothing is relocated. So the code here must not keep an
 * address in data, nor an array or a structure on the stack. build.sh defines OUT_OF_MEMORY, STREAM
 * and MESSAGE, and STARTS_EARLY for a loader that can start a program early. */
#define _GNU_SOURCE
#include "rlibreg_disk_file.h"
#include "rlibreg_stack.h"

#ifdef STARTS_EARLY
#include "rlibreg_run_early.h"
#endif

#include <signal.h>
#include <stdint.h>
#include <sys/mman.h>
#include <sys/stat.h>
#include <sys/syscall.h>

/* Number of bytes that are requested: more than a start needs, which is some 150 KiB. */
enum { MEMORY = 512 << 10 };

void rlibreg_begin(int64_t *stack);

/* Keeps the arguments, to which rsp points, and rdx for the C library's own entry. */
__asm__(".globl rlibreg_entry\n"
        "rlibreg_entry:\n"
        "  mov %rsp, %rbp\n"
        "  mov %rdx, %rbx\n"
        "  mov %rsp, %rdi\n"
        "  call rlibreg_begin\n"
        "  mov %rbp, %rsp\n"
        "  mov %rbx, %rdx\n"
        "  jmp _start\n");

static long ask(long number, const void *a, const void *b, long c, long d) {
    register long fourth __asm__("r10") = d, fd __asm__("r8") = -1;
    register long from __asm__("r9") = 0;
    long result;
    __asm__ volatile("syscall"
                     : "=a"(result)
                     : "a"(number), "D"(a), "S"(b), "d"(c), "r"(fourth), "r"(fd), "r"(from)
                     : "rcx", "r11", "memory");
    return result;
}

static long ask_of_file(long number, const void *file, struct stat *found) {
    return ask(number, file, found, 0, 0);
}

int rlibreg_names_stream(int stream, char **words) {
    static struct stat behind, found;
    if (ask_of_file(SYS_fstat, (void *)(long)stream, &behind)) return 0;
    for (; *words; words++)
        if (!ask_of_file(SYS_stat, *words, &found) && rlibreg_is_same_file(&found, &behind))
            return 1;
    return 0;
}

/* Prints the message and ends the process. If the stream is a pipe without a reader, the process
 * doesn't end earlier, because SIGPIPE stays blocked. */
static void refuse(char **words) {
    static const char message[] = MESSAGE;
    static const uint64_t pipe_signal = (uint64_t)1 << (SIGPIPE - 1);
    if (!rlibreg_names_stream(STREAM, words)) {
        ask(SYS_rt_sigprocmask, (void *)SIG_BLOCK, &pipe_signal, 0, sizeof pipe_signal);
        ask(SYS_write, (void *)STREAM, message, sizeof message - 1, 0);
    }
    ask(SYS_exit_group, (void *)OUT_OF_MEMORY, NULL, 0, 0);
}

static void ask_for_memory(char **words) {
    const int kind = MAP_PRIVATE | MAP_ANONYMOUS;
    long map = ask(SYS_mmap, NULL, (void *)MEMORY, PROT_READ | PROT_WRITE, kind);
    if (map < 0 && map > -4096) refuse(words);
    ask(SYS_munmap, (void *)map, (void *)MEMORY, 0, 0);
}

/* Called by the entry. The number of arguments is at `stack`, and the arguments follow it. */
__attribute__((used)) void rlibreg_begin(int64_t *stack) {
    char **words = (char **)(stack + 1);
#ifdef STARTS_EARLY
    rlibreg_run_early((int)*stack, words);
#endif
    ask_for_memory(words);
}

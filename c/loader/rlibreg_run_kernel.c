/* Calls the kernel without a C library, for the parts of the loader that run before there is
 * one. */
#define _GNU_SOURCE
#include "rlibreg_run_kernel.h"

#include <asm/prctl.h>
#include <errno.h>
#include <fcntl.h>
#include <sys/personality.h>
#include <sys/prctl.h>
#include <sys/resource.h>
#include <sys/syscall.h>
#include <unistd.h>

/* Makes a system call with up to six arguments. Returns the result of the kernel. */
static int64_t ask(long number, const uint64_t it[6]) {
    register uint64_t fourth __asm__("r10") = it[3], fifth __asm__("r8") = it[4];
    register uint64_t sixth __asm__("r9") = it[5];
    int64_t result;
    __asm__ volatile("syscall"
                     : "=a"(result)
                     : "a"(number), "D"(it[0]), "S"(it[1]), "d"(it[2]), "r"(fourth), "r"(fifth),
                       "r"(sixth)
                     : "rcx", "r11", "memory");
    return result;
}

#define ASK(number, ...) ask(number, (const uint64_t[6]){ __VA_ARGS__ })
#define NUMBER(it) (uint64_t)(int64_t)(it)
#define PLACE(it) (uint64_t)(it)

/* ---- Files */

int kernel_open(int folder, const char *path, int flags) {
    return (int)ASK(SYS_openat, NUMBER(folder), PLACE(path), NUMBER(flags));
}

int kernel_close(int fd) {
    return (int)ASK(SYS_close, NUMBER(fd));
}

int kernel_flags(int fd) {
    return (int)ASK(SYS_fcntl, NUMBER(fd), F_GETFL);
}

int kernel_set_flags(int fd, int flags) {
    return (int)ASK(SYS_fcntl, NUMBER(fd), F_SETFL, NUMBER(flags));
}

int kernel_remove(int folder, const char *name) {
    return (int)ASK(SYS_unlinkat, NUMBER(folder), PLACE(name), 0);
}

int kernel_fstat(int fd, struct stat *found) {
    return (int)ASK(SYS_fstat, NUMBER(fd), PLACE(found));
}

int kernel_statx(int fd, unsigned wanted, struct statx *found) {
    return (int)ASK(SYS_statx, NUMBER(fd), PLACE(""), AT_EMPTY_PATH, wanted, PLACE(found));
}

int kernel_fstatfs(int fd, struct statfs *found) {
    return (int)ASK(SYS_fstatfs, NUMBER(fd), PLACE(found));
}

int kernel_ioctl(int fd, unsigned long request, void *argument) {
    return (int)ASK(SYS_ioctl, NUMBER(fd), request, PLACE(argument));
}

#ifndef SYS_faccessat2 /* Linux 5.8 */
#define SYS_faccessat2 439
#endif

int kernel_may_execute(int fd) {
    return (int)ASK(SYS_faccessat2, NUMBER(fd), PLACE(""), X_OK, AT_EACCESS | AT_EMPTY_PATH);
}

int64_t kernel_end(int fd) {
    return ASK(SYS_lseek, NUMBER(fd), 0, SEEK_END);
}

int64_t kernel_read(int fd, void *to, size_t length, uint64_t at) {
    return ASK(SYS_pread64, NUMBER(fd), PLACE(to), length, at);
}

int64_t kernel_folder(char *to, size_t room) {
    return ASK(SYS_getcwd, PLACE(to), room);
}

/* ---- Memory */

int64_t kernel_map(uint64_t at, uint64_t length, int how, int kind, int fd, uint64_t from) {
    return ASK(SYS_mmap, at, length, NUMBER(how), NUMBER(kind), NUMBER(fd), from);
}

int kernel_unmap(uint64_t at, uint64_t length) {
    return (int)ASK(SYS_munmap, at, length);
}

int kernel_advise(uint64_t at, uint64_t length, int how) {
    return (int)ASK(SYS_madvise, at, length, NUMBER(how));
}

/* ---- The process */

int kernel_clock(struct timespec *now) {
    return (int)ASK(SYS_clock_gettime, CLOCK_REALTIME, PLACE(now));
}

int64_t kernel_stack_limit(void) {
    struct rlimit limit;
    int64_t error = ASK(SYS_prlimit64, 0, RLIMIT_STACK, 0, PLACE(&limit));
    if (error) return error;
    return limit.rlim_cur > INT64_MAX ? INT64_MAX : (int64_t)limit.rlim_cur;
}

void kernel_take_name(const char *name) {
    ASK(SYS_prctl, PR_SET_NAME, PLACE(name));
}

void kernel_take_thread(void *block) {
    ASK(SYS_arch_prctl, ARCH_SET_FS, PLACE(block));
}

_Noreturn void kernel_end_process(int status, const char *message) {
    ASK(SYS_write, STDERR_FILENO, PLACE(message), strlen(message));
    for (;;) ASK(SYS_exit_group, NUMBER(status));
}

int has_fixed_bases(void) {
    int64_t how = ASK(SYS_personality, 0xffffffff);
    return how >= 0 && how & ADDR_NO_RANDOMIZE;
}

/* ---- Bytes */

void *memcpy(void *to, const void *from, size_t length) {
    void *at = to;
    __asm__ volatile("rep movsb" : "+D"(at), "+S"(from), "+c"(length) : : "memory");
    return to;
}

void *memset(void *to, int byte, size_t length) {
    void *at = to;
    __asm__ volatile("rep stosb" : "+D"(at), "+c"(length) : "a"(byte) : "memory");
    return to;
}

/* Bytes of any type, at any address. */
typedef uint64_t __attribute__((may_alias, aligned(1))) piece;

/* Returns the number of equal bytes at the front, in multiples of the number that the processor
 * compares at once. Requests the bytes at `other` early: usually they are a map of a file that this
 * process hasn't read before, while the bytes at `one` have just been read. */
static size_t equal_at_once(const uint8_t *one, const uint8_t *other, size_t length) {
    enum { PIECES = 8, AHEAD = 1024 };
    const size_t step = PIECES * sizeof(piece);
    size_t at = 0;
    for (; at + step <= length; at += step) {
        const piece *a = (const piece *)(one + at), *b = (const piece *)(other + at);
        uint64_t differ = 0;
        __builtin_prefetch(other + at + AHEAD);
        for (int i = 0; i < PIECES; i++) differ |= a[i] ^ b[i];
        if (differ) break;
    }
    return at;
}

int memcmp(const void *one, const void *other, size_t length) {
    const uint8_t *a = one, *b = other;
    size_t at = equal_at_once(a, b, length);
    while (at < length && a[at] == b[at]) at++;
    return at < length ? a[at] - b[at] : 0;
}

size_t strlen(const char *text) {
    size_t length = 0;
    while (text[length]) length++;
    return length;
}

/*
 * Makes reads or writes of a program transfer fewer bytes than the program requests, as a system may.
 * SHORT_CALL is `pread` or `pwrite`, and each such call transfers at most SHORT_BYTES bytes. If
 * SHORT_NUMBER is given, only the call of this number does so, counted from 1.
 *
 *     gcc -O1 -shared -fPIC -o short.so bench/gate/short.c
 *     SHORT_CALL=pwrite SHORT_BYTES=612 LD_PRELOAD=./short.so PROGRAM ..
 */
#define _GNU_SOURCE
#include <stdlib.h>
#include <string.h>
#include <sys/syscall.h>
#include <unistd.h>

static const char *call;
static size_t bytes;
static long number, calls;

__attribute__((constructor)) static void begin(void) {
    const char *most = getenv("SHORT_BYTES"), *only = getenv("SHORT_NUMBER");
    call = getenv("SHORT_CALL");
    bytes = most ? strtoul(most, NULL, 10) : 0;
    number = only ? strtol(only, NULL, 10) : 0;
}

/* Returns the maximum number of bytes that the next call of this name transfers. */
static size_t most_of(const char *name, size_t asked) {
    if (!call || strcmp(name, call)) return asked;
    calls++;
    if (number && calls != number) return asked;
    return asked < bytes ? asked : bytes;
}

ssize_t pread(int file, void *into, size_t asked, off_t from) {
    return syscall(SYS_pread64, file, into, most_of("pread", asked), from);
}

ssize_t pwrite(int file, const void *from, size_t asked, off_t to) {
    return syscall(SYS_pwrite64, file, from, most_of("pwrite", asked), to);
}

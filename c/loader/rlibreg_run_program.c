/* Opens and reads the program's file. */
#define _GNU_SOURCE
#include "rlibreg_run.h"

#include <errno.h>
#include <fcntl.h>
#include <stdlib.h>
#include <string.h>
#include <sys/stat.h>
#include <unistd.h>

enum { MOST = (16 << 20) + 1 }; /* a file of this many bytes or more is refused */

/* Returns whether the user may execute a file, as the kernel decides it for a program. No user may
 * execute a file on a file system that is mounted without this right. A kernel before 5.8 can't be
 * asked about a descriptor. */
static int may_execute(int fd, const char *path) {
    if (!faccessat(fd, "", X_OK, AT_EACCESS | AT_EMPTY_PATH)) return 1;
    return errno != EACCES && !faccessat(AT_FDCWD, path, X_OK, AT_EACCESS);
}

/* A file that isn't regular may never end. The loader refuses such a file without waiting. */
void open_program(struct program *it) {
    it->fd = open(it->path, O_RDONLY | O_CLOEXEC | O_NOCTTY | O_NONBLOCK);
    if (it->fd < 0 || fstat(it->fd, &it->found)) fail(it->path);
    if (!S_ISREG(it->found.st_mode)) give_up(FAILED, it->path, "it is no regular file");
    if (!may_execute(it->fd, it->path)) fail(it->path);
}

/* Reads the file into memory, so that nobody can shorten or change it while the loader uses it. */
void read_program(struct program *it) {
    it->bytes = malloc(MOST);
    if (!it->bytes) fail("memory");
    if (it->found.st_size < MOST) expect_bytes((uint64_t)it->bytes, (uint64_t)it->found.st_size);
    while (it->length < MOST) {
        ssize_t got = read(it->fd, it->bytes + it->length, MOST - it->length);
        if (got < 0 && errno == EINTR) continue;
        if (got < 0) fail(it->path);
        if (!got) break;
        it->length += (size_t)got;
    }
}

/* ---- Headers */

static Elf64_Ehdr file_header(const struct program *it) {
    Elf64_Ehdr header = { 0 };
    if (it->length >= sizeof header) memcpy(&header, it->bytes, sizeof header);
    return header;
}

/* Reads program header number `number` into `one`. Returns whether the file has it. */
static int read_header(const struct program *it, size_t number, Elf64_Phdr *one) {
    Elf64_Ehdr header = file_header(it);
    if (number >= header.e_phnum || header.e_phoff > it->length) return 0;
    if (number >= (it->length - header.e_phoff) / sizeof *one) return 0;
    memcpy(one, it->bytes + header.e_phoff + number * sizeof *one, sizeof *one);
    return 1;
}

uint64_t unit_of(const struct program *it) {
    Elf64_Phdr one;
    uint64_t unit = PAGE;
    for (size_t i = 0; read_header(it, i, &one); i++)
        if (one.p_type == PT_LOAD && one.p_align > unit) unit = one.p_align;
    return unit;
}

/* Simulates addresses that are in use, and a bind that reports itself if BINDS is set. Both are
 * linked into the loader with --wrap=mmap, --wrap=kernel_map and --wrap=rlibreg_bind. Of the maps
 * that request an address, the first FREE get it, the next TAKEN find it in use, and all later maps
 * get it again. If ELSEWHERE is set, the maps that find it in use get another address, as from a
 * kernel before 4.17. The file CUT is shortened after each map of a file, and the file CUT_LATE
 * before a bind. After each bind, the bytes of the file RAW are written over the file `disk`, as a
 * process would do that takes no lock. */
#define _GNU_SOURCE
#include "rlibreg.h"
#include "rlibreg_run_kernel.h"

#include <errno.h>
#include <stdio.h>
#include <stdlib.h>
#include <sys/mman.h>
#include <unistd.h>

void *__real_mmap(void *at, size_t length, int how, int kind, int fd, off_t from);
void *__wrap_mmap(void *at, size_t length, int how, int kind, int fd, off_t from);

static void cut(const char *variable) {
    if (getenv(variable) && truncate(getenv(variable), 0)) abort();
}

/* Writes the bytes of the file RAW over `disk`. */
static void write_raw(void) {
    static uint8_t bytes[1 << 20];
    if (!getenv("RAW")) return;
    FILE *from = fopen(getenv("RAW"), "r"), *to = fopen("disk", "r+");
    if (!from || !to) abort();
    size_t length = fread(bytes, 1, sizeof bytes, from);
    if (fwrite(bytes, 1, length, to) != length || fclose(to) || fclose(from)) abort();
}

static long number_of(const char *variable) {
    return getenv(variable) ? atol(getenv(variable)) : 0;
}

/* Returns whether this map finds its address in use. */
static int is_taken(int kind) {
    static long calls;
    if (!(kind & MAP_FIXED_NOREPLACE)) return 0;
    long call = calls++ - number_of("FREE");
    return call >= 0 && call < number_of("TAKEN");
}

void *__wrap_mmap(void *at, size_t length, int how, int kind, int fd, off_t from) {
    if (is_taken(kind)) {
        if (getenv("ELSEWHERE"))
            return __real_mmap(NULL, length, how, kind & ~MAP_FIXED_NOREPLACE, fd, from);
        errno = EEXIST;
        return MAP_FAILED;
    }
    void *map = __real_mmap(at, length, how, kind, fd, from);
    if (!(kind & MAP_FIXED_NOREPLACE)) cut("CUT");
    return map;
}

int64_t __real_kernel_map(uint64_t at, uint64_t length, int how, int kind, int fd, uint64_t from);
int64_t __wrap_kernel_map(uint64_t at, uint64_t length, int how, int kind, int fd, uint64_t from);
int64_t __wrap_kernel_map(uint64_t at, uint64_t length, int how, int kind, int fd, uint64_t from) {
    if (!is_taken(kind)) return __real_kernel_map(at, length, how, kind, fd, from);
    if (!getenv("ELSEWHERE")) return -EEXIST;
    return __real_kernel_map(0, length, how, kind & ~MAP_FIXED_NOREPLACE, fd, from);
}

uint32_t __real_rlibreg_bind(const uint8_t *disk, size_t disk_length, const uint8_t *program,
                             size_t program_length, uint64_t base, rlibreg_object *objects,
                             size_t objects_room, rlibreg_segment *segments, size_t segments_room,
                             uint8_t *bytes, size_t bytes_room, char *text, size_t text_room,
                             rlibreg_answer *answer);
uint32_t __wrap_rlibreg_bind(const uint8_t *disk, size_t disk_length, const uint8_t *program,
                             size_t program_length, uint64_t base, rlibreg_object *objects,
                             size_t objects_room, rlibreg_segment *segments, size_t segments_room,
                             uint8_t *bytes, size_t bytes_room, char *text, size_t text_room,
                             rlibreg_answer *answer) {
    cut("CUT_LATE");
    if (getenv("BINDS")) fputs("bind\n", stderr);
    uint32_t status =
        __real_rlibreg_bind(disk, disk_length, program, program_length, base, objects, objects_room,
                            segments, segments_room, bytes, bytes_room, text, text_room, answer);
    write_raw();
    return status;
}

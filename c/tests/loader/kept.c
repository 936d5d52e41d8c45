/* kept FILE tests the key of a kept image, and the checks of its file before the file is used. It
 * may write FILE. */
#define _GNU_SOURCE
#include "rlibreg_run_kept.h"

#include <errno.h>
#include <fcntl.h>
#include <stddef.h>
#include <stdio.h>
#include <stdlib.h>
#include <string.h>
#include <sys/mman.h>
#include <time.h>
#include <unistd.h>

#define WANT(what)                                                       \
    do {                                                                 \
        if (!(what)) {                                                   \
            fprintf(stderr, "kept.c:%d: not so: %s\n", __LINE__, #what); \
            exit(1);                                                     \
        }                                                                \
    } while (0)

static int is_fixed;
int __wrap_has_fixed_bases(void);
int __wrap_has_fixed_bases(void) {
    return is_fixed;
}

/* ---- The key */

static void try_each_byte(void) {
    struct key key = { 0 }, other;
    memset(&key, 3, sizeof key);
    other = key;
    WANT(is_same_key(&key, &other));
    for (size_t i = 0; i < sizeof key; i++) {
        ((uint8_t *)&other)[i] ^= 1;
        WANT(!is_same_key(&key, &other));
        other = key;
    }
    WANT(sizeof key == BUILD + sizeof key.boot + ROOTS + 2 * sizeof key.disk +
                           3 * sizeof(uint64_t)); /* the fields have no gaps between them */
    WANT(sizeof key.disk == 11 * sizeof(uint64_t));
}

/* This program is linked with the id 01 02 .. 0a. */
static void try_loader(void) {
    struct key key;
    memset(&key, 9, sizeof key);
    WANT(!key_of_loader(&key));
    for (int i = 0; i < BUILD; i++) WANT(key.build[i] == (i < 10 ? i + 1 : 0));
}

static struct key key_of(const char *path) {
    struct key key = { 0 };
    int fd = open(path, O_RDONLY);
    WANT(fd >= 0 && !key_of_disk(fd, &key));
    close(fd);
    return key;
}

static void put(const char *path, const void *bytes, size_t length, off_t at) {
    int fd = open(path, O_WRONLY | O_CREAT, 0600);
    WANT(fd >= 0 && pwrite(fd, bytes, length, at) == (ssize_t)length);
    close(fd);
}

/* Waits for a clock tick, because the times of a file advance by ticks. */
static void wait_a_tick(void) {
    nanosleep(&(struct timespec){ .tv_nsec = 20000000 }, NULL);
}

static void try_disk(const char *path) {
    uint8_t bytes[ROOTS + 100];
    struct stat found;
    for (size_t i = 0; i < sizeof bytes; i++) bytes[i] = (uint8_t)(i * 7 + i / 256);
    put(path, bytes, sizeof bytes, 0);
    struct key key = key_of(path), other = key_of(path);
    WANT(is_same_key(&key, &other));
    WANT(!memcmp(key.roots, bytes, ROOTS));
    WANT(strlen(key.boot) == 36);
    WANT(!stat(path, &found));
    WANT(key.disk.kind == OF_FILE || key.disk.kind == OF_MEMORY);
    WANT(is_compared(&key.disk) == (key.disk.kind == OF_MEMORY) && key.disk.device == found.st_dev);
    WANT(key.disk.number == found.st_ino && key.disk.length == sizeof bytes);
    WANT((int64_t)key.disk.modified[0] == found.st_mtim.tv_sec);
    WANT((int64_t)key.disk.changed[1] == found.st_ctim.tv_nsec);

    wait_a_tick();
    put(path, bytes + ROOTS, 1, ROOTS); /* writes the byte after the roots again, with the same
                                         * value */
    const struct timespec times[] = { found.st_atim, found.st_mtim };
    WANT(!utimensat(AT_FDCWD, path, times, 0));
    other = key_of(path);
    WANT(!memcmp(other.disk.modified, key.disk.modified, sizeof key.disk.modified));
    WANT(!is_same_key(&key, &other));
    put(path, "", 1, ROOTS - 1);
    other = key_of(path);
    WANT(other.roots[ROOTS - 1] == 0 && !memcmp(other.roots, bytes, ROOTS - 1));
}

static void try_what_tells_too_little(const char *path) {
    struct key key;
    int ends[2], fd;
    WANT(!truncate(path, ROOTS - 1) && (fd = open(path, O_RDONLY)) >= 0);
    WANT(key_of_disk(fd, &key));
    close(fd);
    WANT(!pipe(ends) && key_of_disk(ends[0], &key));
    close(ends[0]);
    close(ends[1]);
    const char *others[] = { "/", "/dev/null", "/proc/kallsyms", "/proc/self/status" };
    for (size_t i = 0; i < sizeof others / sizeof *others; i++) {
        fd = open(others[i], O_RDONLY);
        WANT(fd < 0 || key_of_disk(fd, &key));
        close(fd);
    }
}

static void try_program(const char *path) {
    struct program program = { .fd = open(path, O_RDONLY), .base = 4096 };
    struct key key = { 0 }, other = { 0 };
    WANT(program.fd >= 0);
    program.found.st_size = MOST_COMPARED;
    WANT(!key_of_program(&program, &key) && key.program.kind == OF_BYTES);
    WANT(key.program.length == MOST_COMPARED && key.choice == AT_RANDOM_BASE && !key.base);
    program.has_base = program.may_be_both = is_fixed = 1;
    WANT(!key_of_program(&program, &other) && other.choice == AT_NAMED_BASE);
    WANT(other.base == 4096 && other.may_be_both == 1);
    program.has_base = 0;
    WANT(!key_of_program(&program, &other) && other.choice == AT_FIXED_BASE && !other.base);
    is_fixed = 0;
    program.found.st_size = MOST_COMPARED + 1;
    struct state state;
    WANT(!state_of(program.fd, &state) && !key_of_program(&program, &key));
    WANT(key.program.kind == (state.kind == OF_FILE ? OF_FILE : OF_BYTES));
    program.found.st_size = MOST_PROGRAM + 1;
    WANT(!!key_of_program(&program, &key) == (state.kind != OF_FILE));
    close(program.fd);
}

static void try_times(void) {
    struct timespec now;
    struct state state = { .kind = OF_FILE };
    const int64_t second = 1000000000;
    WANT(!clock_gettime(CLOCK_REALTIME, &now));
    int64_t whole = now.tv_sec * second + now.tv_nsec;
    const int64_t before[] = { 0, second, 19 * second / 10, -5 * second, -second * 1000000 };
    for (size_t i = 0; i < sizeof before / sizeof *before; i++) {
        state.changed[0] = (uint64_t)((whole - before[i]) / second);
        state.changed[1] = (uint64_t)((whole - before[i]) % second);
        WANT(!is_settled(&state));
    }
    state.changed[0] = (uint64_t)((whole - 2 * second) / second);
    state.changed[1] = (uint64_t)((whole - 2 * second) % second);
    WANT(is_settled(&state));
    state.changed[0] = (uint64_t)-1; /* before 1970 */
    WANT(is_settled(&state));
    WANT(is_settled(&(struct state){ .kind = OF_BYTES }));
}

/* ---- Bytes, by the loader's own functions (rlibreg_run_kernel.h) */

void *own_copy(void *to, const void *from, size_t length) __asm__("rlibreg_kernel_copy");
void *own_fill(void *to, int byte, size_t length) __asm__("rlibreg_kernel_fill");
int own_compare(const void *one, const void *other, size_t length)
    __asm__("rlibreg_kernel_compare");
size_t own_length(const char *text) __asm__("rlibreg_kernel_length");

static void try_bytes(void) {
    static uint8_t one[300], other[300];
    for (size_t length = 0; length < sizeof one; length++)
        for (size_t at = 0; at <= length; at++) {
            if (at < length) other[at] = (uint8_t)(1 + at % 255);
            int is = own_compare(one, other, length);
            WANT(at == length ? !is : is < 0 && own_compare(other, one, length) > 0);
            other[at % sizeof other] = 0;
        }
    WANT(own_fill(one, 7, sizeof one) == one && own_copy(other + 1, one, 200) == other + 1);
    for (size_t i = 0; i < sizeof other; i++) WANT(other[i] == (i && i <= 200 ? 7 : 0));
    WANT(own_length("") == 0 && own_length("four") == 4);
}

/* ---- The file */

enum { PIECES = 3, OF_PROGRAM = 2, OF_DISK = 2, OBJECTS = 2, CALLS = 3, NAMES = 6, PAGES = 2 };
enum { OTHERS = 5000, ENTRY = 512, DISK = 8 * PAGE };

static uint64_t sound_file(uint8_t *bytes, size_t room) {
    struct counts counts = { PIECES, OF_PROGRAM, OF_DISK,       OBJECTS,       1, CALLS - 1,
                             NAMES,  PAGE + OTHERS, OTHERS + ENTRY };
    struct head head = { .counts = counts };
    head.key.disk = (struct state){ .kind = OF_DEVICE, .length = DISK };
    memcpy(head.form, kept_form, sizeof head.form);
    uint64_t pages = place_of_pages(&counts);
    head.length = pages + PAGES * PAGE;
    WANT(head.length <= room);
    memcpy(bytes, &head, sizeof head);
    struct kept_file file = parts_of(bytes);
    file.pieces[0] = (struct piece){ 0x10000, PAGE, pages, PROT_READ | PROT_EXEC };
    file.pieces[1] = (struct piece){ 0x11000, PAGE, pages + PAGE, PROT_READ | PROT_WRITE };
    file.pieces[2] = (struct piece){ 0x12000, 4 * PAGE, 0, PROT_READ };
    uint64_t others = place_of_others(&counts);
    file.stretches[0] = (struct stretch){ 0, PAGE, 0x10000, 0 };
    file.stretches[1] = (struct stretch){ PAGE, OTHERS, 0, others };
    file.stretches[2] = (struct stretch){ PAGE, ENTRY, 0, others + OTHERS };
    file.stretches[3] = (struct stretch){ DISK - PAGE, PAGE, 0x11000, 0 };
    file.objects[0] = (rlibreg_object){ .base = 0x10000, .entry = 0x10010 };
    file.objects[1] = (rlibreg_object){ .base = 0x11000, .name = 2, .name_length = 3 };
    for (int i = 0; i < CALLS; i++) file.calls[i] = 0x10000 + (uint64_t)i * (PAGE - 1) / 2;
    memcpy(file.names, "a\0bcd", NAMES);
    return head.length;
}

/* Returns whether the loader would use a file. Checks the file as the loader does, in memory that
 * ends where the beginning ends. */
static int is_used(const uint8_t *bytes, uint64_t length) {
    struct head head;
    if (length < sizeof head) return 0;
    memcpy(&head, bytes, sizeof head);
    if (!is_head(&head, length)) return 0;
    uint64_t end = place_of_others(&head.counts);
    WANT(end <= length);
    uint8_t *beginning = malloc(end);
    WANT(beginning);
    memcpy(beginning, bytes, end);
    struct kept_file file = parts_of(beginning);
    int is = is_whole(&file);
    for (uint64_t i = 0; is && i < head.counts.pieces; i++) {
        const struct piece *it = &file.pieces[i];
        WANT(it->address >= PAGE && it->length && it->address + it->length <= (uint64_t)1 << 47);
        WANT(!it->from || it->from + it->length <= length);
    }
    uint64_t compared = 0, all = head.counts.of_program + head.counts.of_disk;
    for (uint64_t i = 0; is && i < all; i++) {
        const struct stretch *it = &file.stretches[i];
        const struct piece *piece = piece_with(file.pieces, head.counts.pieces, it->address);
        WANT(it->address ? piece && it->address + it->length <= piece->address + piece->length
                         : it->from + it->length <= length);
        if (i >= head.counts.of_program) {
            WANT(it->at + it->length <= head.key.disk.length);
            continue;
        }
        WANT(it->at == compared);
        compared += it->length;
    }
    WANT(!is || compared == head.counts.program);
    free(beginning);
    return is;
}

/* A change of a file: eight bytes at an offset. */
struct change {
    size_t at;
    uint64_t number;
};

/* Makes each change of a file in turn; no changed file may be used. The function is long because it
 * has the table of the changes, whose offsets lie in the file. */
static void try_changes(const uint8_t *sound, uint64_t length) {
    uint8_t *bytes = malloc(length);
    struct head *head = (struct head *)bytes;
    WANT(bytes);
    memcpy(bytes, sound, length);
    struct kept_file file = parts_of(bytes);
#define AT(place) (size_t)((uint8_t *)&(place)-bytes)
    const uint64_t far = (uint64_t)1 << 47, all = ~(uint64_t)0, pages = file.pieces[0].from;
    const uint64_t others = place_of_others(&head->counts);
    const struct change changes[] = {
        { 0, 0 }, { 8, 0 }, { AT(head->length), length + 1 }, { AT(head->length), length - 1 },
        { AT(head->counts.pieces), MOST_PIECES + 1 }, { AT(head->counts.pieces), all },
        { AT(head->counts.pieces), 0 }, { AT(head->counts.objects), 0 },
        { AT(head->counts.objects), all / 72 }, { AT(head->counts.initializers), all / 8 },
        { AT(head->counts.finalizers), all / 8 + 1 }, { AT(head->counts.names), all },
        { AT(head->counts.program), all }, { AT(head->counts.program), MOST_COMPARED },
        { AT(head->counts.program), PAGE }, { AT(head->counts.others), all },
        { AT(head->counts.others), MOST_OTHERS }, { AT(head->counts.of_program), all / 24 },
        { AT(head->counts.of_disk), all / 24 }, { AT(head->counts.of_program), OF_PROGRAM - 1 },
        { AT(head->key.disk.kind), OF_FILE }, { AT(head->key.disk.length), DISK - 1 },
        { AT(file.stretches[0].length), all }, { AT(file.stretches[0].length), PAGE - 1 },
        { AT(file.stretches[1].length), OTHERS + 1 }, { AT(file.stretches[1].at), PAGE - 1 },
        { AT(file.stretches[0].at), 1 }, { AT(file.stretches[3].at), DISK - PAGE + 1 },
        { AT(file.stretches[3].at), all }, { AT(file.stretches[3].length), PAGE + 1 },
        { AT(file.stretches[3].address), 0x11001 }, { AT(file.stretches[3].address), 0x12000 },
        { AT(file.stretches[3].address), 0x13000 }, { AT(file.stretches[0].address), 0 },
        { AT(file.stretches[0].address), 0xffff }, { AT(file.stretches[0].address), all },
        { AT(file.stretches[2].from), all }, { AT(file.stretches[2].from), pages - ENTRY + 1 },
        { AT(file.stretches[1].from), others - 1 }, { AT(file.stretches[1].from), pages },
        { AT(file.pieces[1].how), PROT_WRITE }, { AT(file.stretches[3].at), PAGE + ENTRY - 1 },
        { AT(file.pieces[0].address), 0 }, { AT(file.pieces[0].address), 0x10008 },
        { AT(file.pieces[0].address), 0x11000 }, { AT(file.pieces[1].address), 0x10000 },
        { AT(file.pieces[1].address), far }, { AT(file.pieces[2].address), all - PAGE + 1 },
        { AT(file.pieces[0].length), 0 }, { AT(file.pieces[0].length), 2 * PAGE },
        { AT(file.pieces[0].length), 8 }, { AT(file.pieces[2].length), far },
        { AT(file.pieces[2].length), all - PAGE + 1 }, { AT(file.pieces[0].from), pages - PAGE },
        { AT(file.pieces[0].from), pages + 8 }, { AT(file.pieces[0].from), length },
        { AT(file.pieces[1].from), all - PAGE + 1 }, { AT(file.pieces[0].from), PAGE / 2 },
        { AT(file.pieces[0].how), PROT_READ }, { AT(file.pieces[0].how), 8 | PROT_EXEC },
        { AT(file.pieces[0].how), PROT_READ | PROT_WRITE | PROT_EXEC },
        { AT(file.objects[0].entry), 0x11000 }, { AT(file.objects[0].entry), 0 },
        { AT(file.objects[0].entry), 0xffff }, { AT(file.objects[1].name), NAMES },
        { AT(file.objects[1].name), all }, { AT(file.calls[0]), 0x11000 },
        { AT(file.calls[1]), 0xffff }, { AT(file.calls[2]), all }, { AT(file.calls[0]), 0 },
    };
    for (size_t i = 0; i < sizeof changes / sizeof *changes; i++) {
        memcpy(bytes, sound, length);
        memcpy(bytes + changes[i].at, &changes[i].number, sizeof changes[i].number);
        if (is_used(bytes, length)) fprintf(stderr, "the change %zu is taken\n", i), exit(1);
    }
    memcpy(bytes, sound, length);
    file.names[NAMES - 1] = 'x';
    WANT(!is_used(bytes, length));
    memcpy(bytes, sound, length);
    head->key.may_be_both = 1;
    file.pieces[0].how |= PROT_WRITE;
    WANT(is_used(bytes, length));
    free(bytes);
}

/* Checks that a change of any byte of a beginning changes its check, unless the byte is part of the
 * form or of the check. */
static void try_check(const uint8_t *sound, uint64_t length) {
    uint8_t *bytes = malloc(length);
    WANT(bytes);
    memcpy(bytes, sound, length);
    struct head *head = (struct head *)bytes;
    uint64_t check = check_of(head), end = place_of_others(&head->counts);
    for (uint64_t at = offsetof(struct head, key); at < end; at++)
        for (int bit = 0; bit < 8; bit++) {
            bytes[at] ^= (uint8_t)(1 << bit);
            WANT(!is_head(head, length) || place_of_others(&head->counts) > length ||
                 check_of(head) != check);
            bytes[at] ^= (uint8_t)(1 << bit);
        }
    WANT(check_of(head) == check);
    free(bytes);
}

static void try_damage(const uint8_t *sound, uint64_t length) {
    uint8_t *bytes = malloc(length);
    uint32_t random = 1;
    size_t end = place_of_others(&((const struct head *)sound)->counts);
    WANT(bytes);
    for (int round = 0; round < 200000; round++) {
        memcpy(bytes, sound, length);
        for (int i = 0; i <= round % 3; i++) {
            random = random * 1103515245 + 12345;
            size_t at = random >> 8;
            at = round % 2 ? at % end : offsetof(struct head, place) + at % (end - sizeof(struct key));
            bytes[at % end] = (uint8_t)(random >> 3);
        }
        is_used(bytes, length);
    }
    for (uint64_t cut = 0; cut < length; cut += cut < end ? 1 : 64) WANT(!is_used(sound, cut));
    memset(bytes, 0, length);
    WANT(!is_used(bytes, length));
    free(bytes);
}

int main(int argc, char **argv) {
    static _Alignas(8) uint8_t bytes[1 << 16];
    WANT(argc == 2);
    try_each_byte();
    try_loader();
    try_bytes();
    try_disk(argv[1]);
    try_program(argv[1]);
    try_what_tells_too_little(argv[1]);
    try_times();
    uint64_t length = sound_file(bytes, sizeof bytes);
    WANT(is_used(bytes, length));
    try_changes(bytes, length);
    try_check(bytes, length);
    try_damage(bytes, length);
    puts("kept: the key, and what is refused of a file: as wanted");
}

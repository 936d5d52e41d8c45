/* front opens disks in the folder where it is run. The calls of the system are watched, and report
 * other roots on the medium than the system shows. The test checks the drops that the library
 * requests of the system, its writes to the medium, and its refusals. */
#define _GNU_SOURCE
#include "watched.h"

#include <fcntl.h>
#include <unistd.h>

enum { READ_WRITE = RLIBREG_READ_WRITE, BLOCK = 4096, ROOTS = 1024, FOR_EVER = 1 << 20 };

/* Opens a disk, and closes it. Returns the status of the opening. */
static uint32_t opens(const char *path, unsigned flags) {
    rlibreg *it = rlibreg_create();
    WANT(it);
    uint32_t status = rlibreg_open(it, path, flags);
    int why = errno;
    rlibreg_close(it);
    unwatch();
    WANT(!status == !!made(" map ") && !is_held(path));
    errno = why;
    return status;
}

static int fails_by(uint32_t status, int why) {
    return status == RLIBREG_SYSTEM && errno == why;
}

static int count(const char *word) {
    int found = 0;
    for (const char *at = watched.log; (at = strstr(at, word)); at++) found++;
    return found;
}

static void make(const char *path) {
    rlibreg *it = rlibreg_create();
    WANT(it && !rlibreg_format(it, path, 64, 0));
    rlibreg_close(it);
}

static void write_at(const char *path, const void *from, size_t length, off_t at) {
    int fd = open(path, O_RDWR | O_CREAT, 0666);
    WANT(fd >= 0 && pwrite(fd, from, length, at) == (ssize_t)length && !close(fd));
}

/* Watches, with roots that differ: the first (1), the second (2) or both (3). The system keeps its
 * own roots at the first `keeps` requests to drop them. */
static void watch_differing(int differ, int keeps) {
    watch();
    watched.differ = differ;
    watched.keeps = keeps;
}

/* Checks that the library makes the system drop longer and longer fronts, until the system reports
 * that the front is gone. Then does the same again. */
static void try_forgetting(void) {
    const int often[] = { 0, 1, 9, 10, 25 };
    for (size_t i = 0; i < sizeof often / sizeof *often; i++) {
        for (int differ = 1; differ <= 3; differ++) {
            watch_differing(differ, often[i]);
            WANT(!opens("disk", differ % 2 ? READ_WRITE : 0) && !made("write"));
            WANT(watched.forgotten == BLOCK << often[i] % 10);
            WANT(count("forget ") == often[i] + 1 && count("nap ") == often[i] / 10);
            WANT(made("asked read read-past map"));
        }
    }
    watch_differing(0, 0);
    WANT(!opens("disk", READ_WRITE) && !made("forget") && !made("write"));
}

/* Tries a system that keeps the front: an opening for reading is refused, and an opening for
 * changes writes the front to the medium. */
static void try_staying(void) {
    for (int differ = 1; differ <= 3; differ++) {
        watch_differing(differ, FOR_EVER);
        WANT(fails_by(opens("disk", 0), EIO) && !made("write"));
        WANT(count("forget ") == 400 && count("nap ") == 39);
        watch_differing(differ, FOR_EVER);
        WANT(!opens("disk", READ_WRITE) && made("write sync read read-past map"));
        WANT(!watched.differ);
        WANT(count("forget ") == 400 && count("write ") == 1 && watched.wrote == ROOTS);
        watch_differing(differ, FOR_EVER);
        watched.is_stuck = 1;
        WANT(fails_by(opens("disk", READ_WRITE), EIO) && made("write sync read read-past unlock"));
    }
    const char *words[] = { "write", "hold", "forget", "asked" };
    for (size_t i = 0; i < sizeof words / sizeof *words; i++) {
        watch_differing(1, FOR_EVER);
        watched.refused = words[i];
        watched.because = ENOSPC;
        uint32_t status = opens("disk", READ_WRITE);
        WANT(i ? !status && made("write sync") : fails_by(status, ENOSPC));
    }
    watch_differing(1, FOR_EVER);
    watched.refused = "write";
    watched.because = EPERM;
    WANT(fails_by(opens("disk", READ_WRITE), EPERM));
    watch_differing(1, FOR_EVER);
    watched.is_short = 1;
    WANT(fails_by(opens("disk", READ_WRITE), EIO));
}

/* Checks that only a root, of either version, is written to the medium. */
static void try_roots(void) {
    static const char zeros[BLOCK];
    const char *magics[] = { "RLIBREG1", "RLIBREG2", "RLIBREG3", "rlibreg2" };
    for (size_t i = 0; i < 8; i++) {
        write_at("other", zeros, BLOCK, 0);
        write_at("other", magics[i / 2], 8, i % 2 ? 512 : 0);
        watch_differing(1, FOR_EVER);
        uint32_t status = opens("other", READ_WRITE);
        WANT(i < 4 ? !status && count("write ") == 1 : fails_by(status, EIO) && !made("write"));
    }
    for (off_t length = 0; length < BLOCK; length += 511) { /* no registry is that short */
        WANT(!truncate("other", length));
        watch_differing(3, FOR_EVER);
        rlibreg *it = rlibreg_create();
        WANT(!rlibreg_open(it, "other", READ_WRITE) && !made("read-past") && !made("write"));
        rlibreg_close(it);
        unwatch();
    }
    WANT(!unlink("other"));
}

/* Tries a medium that can't be read past the system's memory, or for which such a read returns
 * bytes of some memory. The library makes the system drop the front, and an opening for changes
 * writes the front to the medium. */
static void want_unknown(void (*prepare)(int), int way) {
    prepare(way);
    WANT(!opens("disk", 0) && made("forget asked ") && !made("write") && count("forget ") == 1);
    prepare(way);
    WANT(!opens("disk", READ_WRITE) && made("forget asked ") && made("write sync "));
    WANT(watched.wrote == ROOTS);
    prepare(way);
    watched.keeps = FOR_EVER;
    WANT(!opens("disk", 0) && !made("write") && count("forget ") == 10);
    prepare(way);
    watched.keeps = FOR_EVER;
    WANT(!opens("disk", READ_WRITE) && made("write sync ") && count("forget ") == 10);
}

static void refuse_past(int why) {
    watch();
    watched.refused = why == EPERM ? "past" : "read-past";
    watched.because = why;
}

static void set_encrypted(int way) {
    (void)way;
    watch();
    watched.is_encrypted = 1;
}

static void loop_over_memory(int way) {
    (void)way;
    watch();
    watched.device = 0x701;
    watched.loop = 1;
}

static void try_unknown(void) {
    want_unknown(refuse_past, EPERM);
    want_unknown(refuse_past, EINVAL);
    want_unknown(refuse_past, EOPNOTSUPP);
    want_unknown(set_encrypted, 0);
    want_unknown(loop_over_memory, 0);
    for (int i = 0; i < 2; i++) { /* EPERM: a device that can only be read */
        loop_over_memory(0);
        watched.refused = "write";
        watched.because = i ? EIO : EPERM;
        uint32_t status = opens("disk", READ_WRITE);
        WANT(i ? fails_by(status, EIO) : !status && !made("write sync"));
    }
    loop_over_memory(0);
    watched.loop = 2; /* and a loop past memory */
    WANT(!opens("disk", READ_WRITE) && !made("forget") && !made("write"));
    set_encrypted(0);
    watched.differ = 2;
    watched.keeps = FOR_EVER;
    WANT(fails_by(opens("disk", 0), EIO));
}

/* Tries reads that fail or are short, and an open file that goes on reading past the system's
 * memory. */
static void try_failing(void) {
    const int kinds[] = { EIO, EINTR, ENODATA };
    const char *words[] = { "read", "read-past", "no-more-past" };
    for (size_t i = 0; i < 9; i++) {
        for (unsigned flags = 0; flags <= READ_WRITE; flags++) {
            watch();
            watched.refused = words[i / 3];
            watched.because = kinds[i % 3];
            WANT(fails_by(opens("disk", flags), kinds[i % 3]) && !made("write"));
        }
    }
    for (ssize_t length = 1; length <= BLOCK; length += 341) {
        watch();
        watched.past_length = length;
        uint32_t status = opens("disk", READ_WRITE);
        WANT(length < ROOTS ? fails_by(status, EIO) && !made("write") : !status);
    }
}

int main(void) {
    make("disk");
    try_forgetting();
    try_staying();
    try_roots();
    try_unknown();
    try_failing();
    WANT(!unlink("disk") && !strcmp(names_here(), ""));
    puts("front: roots that the medium has otherwise: forgotten, given to it, or refused");
    return 0;
}

/* contents LIBRARY NAME reads the bytes and digests of libraries, and the information on the whole
 * registry, from disks in the folder where it is run. LIBRARY has the SONAME NAME, of one byte. The
 * file stays a library if the SONAME is changed, and if bytes are added at its end. */
#define _POSIX_C_SOURCE 200809L
#include "watched.h"

#include <unistd.h>

enum { SECTOR = 512, MOST_FILE = 16 << 20 };

static unsigned char library[MOST_FILE + 1]; /* its own bytes, followed by others */
static size_t least;                         /* number of its own bytes */
static unsigned char *soname;                /* byte of the SONAME in it */

static void read_library(const char *path, const char *name) {
    const char wanted[] = { 0, name[0], 0 };
    FILE *file = fopen(path, "rb");
    WANT(file && (least = fread(library, 1, sizeof library, file)) && least < SECTOR);
    fclose(file);
    for (size_t at = least; at < sizeof library; at++) library[at] = (unsigned char)(at % 251 + 1);
    for (size_t at = 0; at + sizeof wanted <= least; at++)
        if (!memcmp(library + at, wanted, sizeof wanted)) soname = library + at + 1;
    WANT(soname);
}

/* Installs a library of this name and length. Returns a status. */
static uint32_t install(rlibreg *it, char name, size_t length) {
    *soname = (unsigned char)name;
    return rlibreg_install(it, library, length);
}

static rlibreg *formatted(uint32_t sectors) {
    rlibreg *it = rlibreg_create();
    unlink("disk");
    WANT(it && !rlibreg_format(it, "disk", sectors, 0));
    return it;
}

static rlibreg *opened(void) {
    rlibreg *it = rlibreg_create();
    WANT(it && !rlibreg_open(it, "disk", RLIBREG_READ_WRITE));
    return it;
}

static uint32_t remove_library(rlibreg *it, char name) {
    return rlibreg_remove(it, (char[]){ name, 0 });
}

/* Checks that a library has the digest that sha256sum prints for these bytes. */
static void want_digest(rlibreg *it, char name, const void *bytes, size_t length) {
    uint8_t digest[RLIBREG_DIGEST_BYTES];
    FILE *file = fopen("given", "wb"), *sum;
    WANT(file && fwrite(bytes, 1, length, file) == length && !fclose(file));
    WANT(!rlibreg_get_digest(it, (char[]){ name, 0 }, digest) && !rlibreg_text(it)[0]);
    sum = popen("sha256sum given", "r");
    for (size_t i = 0; i < sizeof digest; i++) {
        unsigned byte;
        WANT(sum && fscanf(sum, "%2x", &byte) == 1 && byte == digest[i]);
    }
    WANT(pclose(sum) >= 0 && !unlink("given"));
}

static void want_file(rlibreg *it, char name, const void *wanted, size_t length) {
    void *bytes;
    size_t given;
    WANT(!rlibreg_get_file(it, (char[]){ name, 0 }, &bytes, &given));
    WANT(given == length && !memcmp(bytes, wanted, length) && !rlibreg_text(it)[0]);
    free(bytes);
}

/* Checks that the library of this name and length has the bytes that were installed. */
static void want_library(rlibreg *it, char name, size_t length) {
    *soname = (unsigned char)name;
    want_file(it, name, library, length);
}

/* ---- Bytes */

static void want_no_file(rlibreg *it, const char *name, uint32_t wanted, const char *text) {
    uint8_t digest[RLIBREG_DIGEST_BYTES] = { 0 };
    void *bytes = library;
    size_t length = 1;
    WANT(rlibreg_get_file(it, name, &bytes, &length) == wanted && !bytes && !length);
    WANT(!strcmp(rlibreg_text(it), text) && rlibreg_last_answer(it)->status == wanted);
    WANT(rlibreg_get_digest(it, name, digest) == wanted && !digest[0]);
    WANT(!strcmp(rlibreg_text(it), text) && rlibreg_last_answer(it)->status == wanted);
}

/* Tries lengths around those of sectors and of the first buffer. */
static void try_lengths(void) {
    const size_t lengths[] = { least, 512, 513, 65535, 65536, 65537, MOST_FILE };
    const size_t count = sizeof lengths / sizeof *lengths;
    char longest[1000] = { 0 };
    rlibreg *it = formatted(40000);
    for (size_t i = 0; i < count; i++) WANT(!install(it, (char)('a' + i), lengths[i]));
    for (size_t i = 0; i < count; i++) {
        want_library(it, (char)('a' + i), lengths[i]);
        want_digest(it, (char)('a' + i), library, lengths[i]);
    }
    *soname = 'a';
    WANT(!rlibreg_replace(it, library, 70000));
    want_library(it, 'a', 70000);
    want_digest(it, 'a', library, 70000);
    WANT(!remove_library(it, 'b'));
    memset(longest, 'a', sizeof longest - 1);
    want_no_file(it, "b", RLIBREG_NOT_INSTALLED, "refused C3 NotInstalled\n");
    want_no_file(it, "", RLIBREG_NOT_INSTALLED, "refused C3 NotInstalled\n");
    want_no_file(it, longest, RLIBREG_NOT_INSTALLED, "refused C3 NotInstalled\n");
    rlibreg_close(it);
}

/* Puts a byte into the disk. Returns the byte that was there. */
static int put_byte(long at, int byte) {
    FILE *disk = fopen("disk", "r+b");
    WANT(disk && !fseek(disk, at, SEEK_SET));
    int before = getc(disk);
    WANT(before != EOF && !fseek(disk, at, SEEK_SET) && putc(byte, disk) == byte);
    WANT(!fclose(disk));
    return before;
}

/* Checks that the calls return a damaged library as it is, and still return everything else. The
 * data of the library are in sector 2, its entry in 3, and the catalogue in 4. The sectors of
 * another library follow. */
static void try_damaged(void) {
    unsigned char damaged[SECTOR];
    rlibreg_listing listing;
    rlibreg_information told, before;
    rlibreg *it = formatted(64);
    WANT(!install(it, 'a', least) && !install(it, 'b', 2000) && !rlibreg_get_info(it, &before));
    rlibreg_close(it);
    WANT(put_byte(2 * SECTOR, 0) == library[0]);
    it = opened();
    WANT(!rlibreg_get_listing(it, &listing) && listing.libraries == 2);
    rlibreg_listing_free(&listing);
    want_library(it, 'b', 2000);
    *soname = 'a';
    memcpy(damaged, library, least);
    damaged[0] = 0;
    want_file(it, 'a', damaged, least);
    want_digest(it, 'a', damaged, least);
    WANT(!rlibreg_get_info(it, &told) && !memcmp(&told, &before, sizeof told));
    WANT(!rlibreg_text(it)[0]);
    rlibreg_close(it);

    put_byte(2 * SECTOR, library[0]);
    put_byte(3 * SECTOR, 0); /* the entry: after this, no call returns anything */
    it = opened();
    want_no_file(it, "b", RLIBREG_DAMAGED, "refused S5 Damaged\n");
    WANT(rlibreg_get_info(it, &told) == RLIBREG_DAMAGED && !memcmp(&told, &before, sizeof told));
    WANT(!strcmp(rlibreg_text(it), "refused S5 Damaged\n"));
    rlibreg_close(it);
}

/* ---- The whole registry */

static unsigned seen_full, seen_fragmented, seen_empty;

/* Returns whether a file that is longer than the largest one is refused because of its length. */
static int is_too_large(rlibreg *it, uint32_t status, size_t length) {
    seen_full += status == RLIBREG_FULL;
    seen_fragmented += status == RLIBREG_FRAGMENTED;
    if (length > MOST_FILE)
        return status == RLIBREG_BAD_FILE && !strcmp(rlibreg_text(it), "refused C1 E13 TooLarge\n");
    return status == RLIBREG_FULL || status == RLIBREG_FRAGMENTED;
}

/* Checks that the information agrees with the listing. Also checks that a library with a new name
 * can be installed up to the largest length, but not above it. */
static void try_told(rlibreg *it, uint64_t sectors) {
    rlibreg_information told, after;
    rlibreg_listing listing;
    WANT(!rlibreg_get_listing(it, &listing) && !rlibreg_get_info(it, &told));
    WANT(told.version == 2 && told.sectors == sectors && told.generation == listing.generation);
    WANT(told.libraries == listing.libraries && told.preloads == listing.preloads);
    rlibreg_listing_free(&listing);
    size_t above = told.largest < least ? least : told.largest + 1;
    seen_empty += told.largest < least;
    WANT(is_too_large(it, install(it, '~', above), above));
    WANT(!rlibreg_get_info(it, &after) && !memcmp(&told, &after, sizeof told));
    if (told.largest < least) return;
    WANT(!install(it, '~', told.largest));
    want_library(it, '~', told.largest);
    WANT(!remove_library(it, '~') && !rlibreg_get_info(it, &after));
    WANT(after.generation == told.generation + 2 && after.unused_sectors == told.unused_sectors);
    WANT(after.largest == told.largest || told.unused_runs > 32);
}

/* Tries disks of each size from the smallest on, without a library and with one. */
static void try_sizes(void) {
    for (uint32_t sectors = 8; sectors < 40; sectors++) {
        rlibreg *it = formatted(sectors);
        try_told(it, sectors);
        WANT(!install(it, 'a', least));
        try_told(it, sectors);
        rlibreg_close(it);
    }
    rlibreg *it = formatted(40000);
    try_told(it, 40000);
    rlibreg_close(it);
}

/* Fills a disk with small libraries, and then removes every other one, twice. Checks the whole
 * registry at every seventh library. This includes 64 libraries, after which the next one needs one
 * more catalogue. */
static void try_runs(uint32_t sectors) {
    rlibreg *it = formatted(sectors);
    for (int round = 0; round < 2; round++) {
        uint32_t status = RLIBREG_DONE;
        char name = '0';
        for (; !status && name < '~'; name++) {
            status = install(it, name, (size_t)name % 3 * SECTOR + least);
            if (status == RLIBREG_ALREADY_INSTALLED) status = RLIBREG_DONE;
            if ((name - '0') % 7 == 0) try_told(it, sectors);
        }
        for (name = '0' + (char)round; name < '~'; name += 2) {
            remove_library(it, name);
            if (name % 7 == 0) try_told(it, sectors);
        }
    }
    rlibreg_close(it);
}

int main(int argc, char **argv) {
    WANT(argc == 3);
    read_library(argv[1], argv[2]);
    try_lengths();
    try_damaged();
    try_sizes();
    for (uint32_t sectors = 60; sectors < 300; sectors += 20) try_runs(sectors);
    WANT(seen_full && seen_fragmented && seen_empty);
    WANT(!strcmp(names_here(), "disk ") && !unlink("disk"));
    puts("contents: the bytes of libraries, their digests, and what goes in: as wanted");
    return 0;
}

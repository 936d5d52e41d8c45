/* findings LIBRARY NAME OLD checks the libraries of disks, over a file in the folder where it is
 * run, and over the bytes of the file. LIBRARY has the SONAME NAME, of one byte, and stays a
 * library if the SONAME is changed. OLD is a disk of version 1. The finding on a damaged file has
 * to be the same as the result of an installation of that file. */
#include "watched.h"

#include <unistd.h>

enum { SECTOR = 512, SECTORS = 64, ROOM = 1 << 16, LIBRARIES = 3, DAMAGED = 1, GUARD = 0xa5 };

static uint8_t library[SECTOR], disk[SECTORS * SECTOR], old[1 << 20];
static size_t length, old_length;
static uint8_t *soname; /* byte of the SONAME in `library` */
static const char names[] = "a\0b\0c";

static size_t read_file(uint8_t *bytes, size_t room, const char *path) {
    FILE *file = fopen(path, "rb");
    size_t read = file ? fread(bytes, 1, room, file) : 0;
    WANT(read && !fclose(file));
    return read;
}

static void read_library(const char *path, char name) {
    const uint8_t wanted[] = { 0, (uint8_t)name, 0 };
    length = read_file(library, sizeof library, path);
    WANT(length < sizeof library);
    for (size_t at = 0; at + sizeof wanted <= length; at++)
        if (!memcmp(library + at, wanted, sizeof wanted)) soname = library + at + 1;
    WANT(soname);
}

static rlibreg *formatted(uint32_t sectors) {
    rlibreg *it = rlibreg_create();
    unlink("disk");
    WANT(it && !rlibreg_format(it, "disk", sectors, 0));
    return it;
}

static void install(rlibreg *it, char name) {
    *soname = (uint8_t)name;
    WANT(!rlibreg_install(it, library, length));
}

/* Makes a disk that has the libraries of `names`. */
static void make_disk(void) {
    rlibreg *it = formatted(SECTORS);
    for (int i = 0; i < LIBRARIES; i++) install(it, names[2 * i]);
    rlibreg_close(it);
    WANT(read_file(disk, sizeof disk, "disk") == sizeof disk);
}

static void write_disk(void) {
    FILE *file = fopen("disk", "wb");
    WANT(file && fwrite(disk, 1, sizeof disk, file) == sizeof disk && !fclose(file));
}

/* Returns the place on the disk of the file of the library of this name. */
static uint8_t *file_of(char name) {
    *soname = (uint8_t)name;
    for (size_t at = 0; at < sizeof disk; at += SECTOR)
        if (!memcmp(disk + at, library, length)) return disk + at;
    WANT(!"the file is on the disk");
    return NULL;
}

/* ---- The findings that are wanted */

static void want_found(const rlibreg_finding *findings, const char *row, const uint32_t *wanted) {
    WANT(!memcmp(row, names, sizeof names));
    for (size_t i = 0; i < LIBRARIES; i++) {
        WANT(findings[i].name == 2 * i && findings[i].name_length == 1);
        WANT(findings[i].finding == wanted[i]);
    }
}

/* Checks the findings over the bytes, and over a file of these bytes. */
static void want_findings(const uint32_t *wanted) {
    rlibreg_answer answer, zeros = { .count = LIBRARIES, .bytes = sizeof names };
    rlibreg_finding places[LIBRARIES];
    rlibreg_findings found;
    char row[sizeof names];
    WANT(!rlibreg_check(disk, sizeof disk, places, LIBRARIES, row, sizeof row, NULL, 0, &answer));
    WANT(!memcmp(&answer, &zeros, sizeof zeros));
    want_found(places, row, wanted);

    write_disk();
    rlibreg *it = rlibreg_create();
    WANT(it && !rlibreg_open(it, "disk", 0) && !rlibreg_check_libraries(it, &found));
    WANT(found.count == LIBRARIES && !rlibreg_text(it)[0]);
    want_found(found.findings, found.names, wanted);
    rlibreg_findings_free(&found);
    rlibreg_findings_free(&found);
    WANT(!found.findings && !found.names && !found.count);
    rlibreg_close(it);
}

/* Returns the finding that an installation of this file leads to, if a library of this name is
 * installed. */
static uint32_t installation_says(const uint8_t *file, char name) {
    static uint8_t alone[sizeof disk], plan[ROOM];
    rlibreg_answer answer;
    if (!alone[0]) {
        rlibreg *it = formatted(SECTORS);
        install(it, name);
        rlibreg_close(it);
        WANT(read_file(alone, sizeof alone, "disk") == sizeof alone);
    }
    uint32_t status = rlibreg_plan_install(alone, sizeof alone, file, length, plan, ROOM, NULL, 0,
                                           &answer);
    if (status == RLIBREG_BAD_FILE) return answer.file_refusal;
    WANT(!status || status == RLIBREG_ALREADY_INSTALLED);
    return status ? RLIBREG_SOUND : RLIBREG_OTHER_NAME;
}

/* ---- Damaged libraries */

static uint32_t next_random(void) {
    static uint32_t random = 1;
    random = random * 1103515245 + 12345;
    return random >> 8;
}

/* Damages one of three libraries in many ways. The others stay sound. */
static void try_damaged_files(void) {
    uint32_t wanted[LIBRARIES] = { 0 };
    unsigned seen[RLIBREG_OTHER_NAME + 1] = { 0 }, kinds = 0;
    uint8_t *file = file_of(names[2 * DAMAGED]), kept[SECTOR];
    memcpy(kept, file, length);
    want_findings(wanted);
    file[soname - library] = 'a';
    wanted[DAMAGED] = RLIBREG_OTHER_NAME;
    want_findings(wanted);
    memset(file, 0, length);
    wanted[DAMAGED] = 2;
    want_findings(wanted);
    WANT(!strcmp(rlibreg_file_refusal_name(2), "E2 BadMagic"));
    for (int round = 0; round < 4000; round++) {
        memcpy(file, kept, length);
        for (int i = 0; i < 1 + round % 2; i++)
            file[next_random() % length] ^= (uint8_t)(1u << next_random() % 8);
        wanted[DAMAGED] = installation_says(file, names[2 * DAMAGED]);
        want_findings(wanted);
        kinds += !seen[wanted[DAMAGED]]++;
    }
    memcpy(file, kept, length);
    WANT(kinds > 15 && seen[RLIBREG_SOUND] && seen[RLIBREG_OTHER_NAME]);
    printf("findings: %u kinds, each as an installation says it\n", kinds);
}

/* Damages each set of libraries, including none of them and all of them. */
static void try_several(void) {
    uint8_t kept[sizeof disk];
    memcpy(kept, disk, sizeof disk);
    for (unsigned which = 0; which < 1u << LIBRARIES; which++) {
        uint32_t wanted[LIBRARIES] = { 0 };
        for (int i = 0; i < LIBRARIES; i++)
            if (which >> i & 1) {
                file_of(names[2 * i])[4] = 7; /* EI_CLASS */
                wanted[i] = 3;
            }
        want_findings(wanted);
        memcpy(disk, kept, sizeof disk);
    }
}

/* Replaces or removes a damaged library. Then all libraries are sound. */
static void try_mended(void) {
    const uint32_t wanted[LIBRARIES] = { 0 };
    rlibreg_findings found;
    uint8_t kept[sizeof disk];
    memcpy(kept, disk, sizeof disk);
    for (int removes = 0; removes < 2; removes++) {
        rlibreg *it = rlibreg_create();
        file_of('b')[0] = 0;
        write_disk();
        *soname = 'b';
        WANT(it && !rlibreg_open(it, "disk", RLIBREG_READ_WRITE));
        WANT(!(removes ? rlibreg_remove(it, "b") : rlibreg_replace(it, library, length)));
        WANT(!rlibreg_check_libraries(it, &found) && found.count == LIBRARIES - (size_t)removes);
        if (!removes) want_found(found.findings, found.names, wanted);
        for (size_t i = 0; i < found.count; i++) WANT(found.findings[i].finding == RLIBREG_SOUND);
        rlibreg_findings_free(&found);
        rlibreg_close(it);
        memcpy(disk, kept, sizeof disk);
    }
}

/* Damages any byte of the disk. If the information on the registry can be read, the registry can
 * also be listed and checked. */
static void try_damaged_disks(void) {
    static uint8_t kept[sizeof disk], row[ROOM];
    static rlibreg_finding places[64];
    static rlibreg_entry entries[64];
    unsigned damaged = 0, refused = 0;
    memcpy(kept, disk, sizeof disk);
    for (int round = 0; round < 20000; round++) {
        rlibreg_answer answer;
        rlibreg_information told;
        uint64_t sound = 0;
        disk[next_random() % sizeof disk] ^= (uint8_t)(1u << next_random() % 8);
        uint32_t informed = rlibreg_info(disk, sizeof disk, &told, NULL, 0, &answer);
        WANT(rlibreg_list(disk, sizeof disk, entries, 64, (char *)row, ROOM, NULL, 0, &answer) ==
             informed);
        WANT(rlibreg_check(disk, sizeof disk, places, 64, (char *)row, ROOM, NULL, 0, &answer) ==
             informed);
        WANT(answer.status == informed && !answer.file_refusal);
        if (!informed) {
            WANT(answer.count == told.libraries);
            for (size_t i = 0; i < answer.count; i++) sound += !places[i].finding;
            damaged += sound != answer.count;
        }
        refused += informed != 0;
        if (round % 8 == 7) memcpy(disk, kept, sizeof disk);
    }
    WANT(damaged > 100 && refused > 100);
    memcpy(disk, kept, sizeof disk);
}

/* ---- Room */

static int is_guarded(const void *buffer, size_t from, size_t to) {
    for (; from < to; from++)
        if (((const uint8_t *)buffer)[from] != GUARD) return 0;
    return 1;
}

/* Tries buffers of every size. If a buffer is too small, checks that nothing is written, and that
 * the answer has the required sizes. */
static void try_rooms(void) {
    const uint32_t wanted[LIBRARIES] = { 0 };
    for (size_t room = 0; room <= LIBRARIES + 1; room++)
        for (size_t bytes = 0; bytes <= sizeof names + 1; bytes++) {
            int fits = room >= LIBRARIES && bytes >= sizeof names;
            rlibreg_answer answer,
                needed = { .status = fits ? RLIBREG_DONE : RLIBREG_BUFFER_TOO_SMALL,
                           .count = LIBRARIES,
                           .bytes = sizeof names };
            rlibreg_finding places[LIBRARIES + 2];
            char row[sizeof names + 2];
            memset(places, GUARD, sizeof places);
            memset(row, GUARD, sizeof row);
            memset(&answer, GUARD, sizeof answer);
            WANT(rlibreg_check(disk, sizeof disk, places, room, row, bytes, NULL, 0, &answer) ==
                 needed.status);
            WANT(!memcmp(&answer, &needed, sizeof needed));
            if (fits) want_found(places, row, wanted);
            WANT(is_guarded(places, fits ? LIBRARIES * sizeof *places : 0, sizeof places));
            WANT(is_guarded(row, fits ? sizeof names : 0, sizeof row));
        }
}

/* ---- Without a registry */

/* Checks bytes without a registry: the answer has only the reason, and the call writes only the
 * line with this reason. */
static void want_refused(const uint8_t *bytes, size_t size, uint32_t status, const char *line) {
    for (size_t room = 0; room <= strlen(line) + 1; room++) {
        rlibreg_answer answer, wanted = { .status = status, .text = strlen(line) };
        rlibreg_finding places[4];
        size_t said = room < strlen(line) ? room : strlen(line);
        char row[8], text[64];
        memset(places, GUARD, sizeof places);
        memset(row, GUARD, sizeof row);
        memset(text, GUARD, sizeof text);
        memset(&answer, GUARD, sizeof answer);
        WANT(rlibreg_check(bytes, size, places, 4, row, sizeof row, text, room, &answer) == status);
        WANT(!memcmp(&answer, &wanted, sizeof wanted) && !memcmp(text, line, said));
        WANT(is_guarded(text, said, sizeof text) && is_guarded(row, 0, sizeof row));
        WANT(is_guarded(places, 0, sizeof places));
    }
}

static void try_refused(void) {
    static uint8_t zeros[sizeof disk], damaged[sizeof disk];
    memcpy(damaged, disk, sizeof disk);
    damaged[3 * SECTOR] ^= 1; /* the entry of the first library */
    want_refused(damaged, sizeof damaged, RLIBREG_DAMAGED, "refused S5 Damaged\n");
    want_refused(zeros, sizeof zeros, RLIBREG_NOT_FORMATTED, "refused S3 NotFormatted\n");
    want_refused(disk, sizeof disk - 1, RLIBREG_BAD_GEOMETRY, "refused S6 BadGeometry\n");
    want_refused(NULL, 0, RLIBREG_BAD_GEOMETRY, "refused S6 BadGeometry\n");
    want_refused(old, old_length, RLIBREG_OLD_FORMAT, "refused S12 OldFormat\n");
}

/* ---- Numbers of libraries */

/* Tries a registry without libraries, and a registry with more libraries than the first buffer has
 * room for. */
static void try_numbers(void) {
    rlibreg_findings found;
    rlibreg *it = formatted(512);
    size_t count = 0;
    WANT(!rlibreg_check_libraries(it, &found) && !found.count);
    rlibreg_findings_free(&found);
    for (char name = '0'; name < '~'; name++)
        if (name != '/') install(it, name), count++;
    WANT(!rlibreg_check_libraries(it, &found) && found.count == count && count > 64);
    for (size_t i = 0; i < count; i++) {
        const char wanted[] = { (char)('0' + i), 0 };
        WANT(!strcmp(found.names + found.findings[i].name, wanted) && !found.findings[i].finding);
    }
    rlibreg_findings_free(&found);
    rlibreg_close(it);
    it = rlibreg_create();
    WANT(rlibreg_check_libraries(it, &found) == RLIBREG_BAD_GEOMETRY && !found.findings);
    WANT(!strcmp(rlibreg_text(it), "refused S6 BadGeometry\n"));
    rlibreg_close(it);
}

int main(int argc, char **argv) {
    WANT(argc == 4);
    read_library(argv[1], argv[2][0]);
    old_length = read_file(old, sizeof old, argv[3]);
    make_disk();
    try_rooms();
    try_refused();
    try_damaged_files();
    try_several();
    try_mended();
    try_damaged_disks();
    try_numbers();
    WANT(!strcmp(names_here(), "disk ") && !unlink("disk"));
    puts("findings: sound and damaged libraries, buffers of every size, no registry: as wanted");
    return 0;
}

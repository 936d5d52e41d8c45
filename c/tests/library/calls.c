/* calls LIBRARY OTHER PROGRAM NAME DIGEST makes the calls over bytes with buffers of every size,
 * with damaged bytes, and with no bytes. PROGRAM needs LIBRARY, which has the SONAME NAME; OTHER
 * has the same SONAME. DIGEST is the digest that sha256sum prints for LIBRARY. */
#include "rlibreg.h"

#include <stdio.h>
#include <stdlib.h>
#include <string.h>

enum { SECTOR = 512, SECTORS = 40, ROOM = 1 << 20, GUARD = 64, GUARDED = 0xa5 };

#define WANT(what)                                                                                 \
    do {                                                                                           \
        if (!(what)) {                                                                             \
            fprintf(stderr, "calls: line %d: not so: %s\n", __LINE__, #what);                      \
            exit(1);                                                                               \
        }                                                                                          \
    } while (0)

struct file {
    uint8_t *bytes;
    size_t length;
};

static struct file read_file(const char *path) {
    struct file it;
    FILE *file = fopen(path, "rb");
    WANT(file && !fseek(file, 0, SEEK_END));
    it.length = (size_t)ftell(file);
    rewind(file);
    it.bytes = malloc(it.length + 1);
    WANT(it.bytes && fread(it.bytes, 1, it.length, file) == it.length);
    fclose(file);
    return it;
}

/* ---- Buffers followed by a guard */

static void *guarded(size_t length) {
    uint8_t *it = malloc(length + GUARD);
    WANT(it);
    memset(it, GUARDED, length + GUARD);
    return it;
}

static void check_guard(void *buffer, size_t length) {
    for (size_t i = 0; i < GUARD; i++) WANT(((uint8_t *)buffer)[length + i] == GUARDED);
    free(buffer);
}

/* ---- A disk for the calls */

static uint8_t disk[SECTORS * SECTOR];

static void carry_out(const uint8_t *plan, uint64_t length) {
    for (uint64_t at = 0; at < length; at += 4) {
        uint32_t n = plan[at] | (uint32_t)plan[at + 1] << 8 | (uint32_t)plan[at + 2] << 16 |
                     (uint32_t)plan[at + 3] << 24;
        if (n == RLIBREG_SYNC) continue;
        WANT(n < SECTORS);
        memcpy(disk + (size_t)n * SECTOR, plan + at + 4, SECTOR);
        at += SECTOR;
    }
}

struct call {
    char what; /* kind of the plan call: f, u, i, r or d; any other letter is the call for
                * preloads */
    const void *asked;
    size_t length;
};

static uint32_t plan(struct call it, uint8_t *out, size_t room, char *text, size_t text_room,
                     rlibreg_answer *answer) {
    switch (it.what) {
    case 'f':
        return rlibreg_plan_format(disk, sizeof disk, out, room, text, text_room, answer);
    case 'u':
        return rlibreg_plan_upgrade(disk, sizeof disk, out, room, text, text_room, answer);
    case 'i':
        return rlibreg_plan_install(disk, sizeof disk, it.asked, it.length, out, room, text,
                                    text_room, answer);
    case 'r':
        return rlibreg_plan_replace(disk, sizeof disk, it.asked, it.length, out, room, text,
                                    text_room, answer);
    case 'd':
        return rlibreg_plan_remove(disk, sizeof disk, it.asked, it.length, out, room, text,
                                   text_room, answer);
    }
    return rlibreg_plan_preload(disk, sizeof disk, it.asked, it.length, out, room, text, text_room,
                                answer);
}

/* Makes a plan in buffers of every size, and then carries it out. */
static void try_plan(struct call it) {
    static uint8_t whole[ROOM], before[sizeof disk];
    char ok[8];
    rlibreg_answer answer, other;
    memcpy(before, disk, sizeof disk);
    WANT(plan(it, whole, ROOM, ok, sizeof ok, &answer) == RLIBREG_DONE);
    WANT(answer.status == 0 && answer.text == 3 && !memcmp(ok, "ok\n", 3));
    WANT(answer.count > 0 && answer.bytes > 0 && answer.generation == 0);
    for (size_t room = 0; room <= answer.bytes; room++) {
        uint8_t *out = guarded(room);
        char *text = guarded(2);
        uint32_t status = plan(it, out, room, text, 2, &other);
        WANT(status == (room < answer.bytes ? RLIBREG_BUFFER_TOO_SMALL : RLIBREG_DONE));
        WANT(other.status == status && other.bytes == answer.bytes && other.count == answer.count);
        if (!status) WANT(!memcmp(out, whole, room) && other.text == 3 && !memcmp(text, "ok", 2));
        if (status) WANT(other.text == 0 && text[0] == (char)GUARDED);
        check_guard(out, room);
        check_guard(text, 2);
    }
    WANT(!memcmp(before, disk, sizeof disk)); /* a call writes nothing to the disk */
    carry_out(whole, answer.bytes);
}

/* Checks the number of steps of a plan. */
static void try_steps(struct call it, uint64_t steps) {
    static uint8_t out[ROOM];
    char text[8];
    rlibreg_answer answer;
    WANT(plan(it, out, ROOM, text, sizeof text, &answer) == RLIBREG_DONE);
    WANT(answer.count == steps);
}

/* Checks a refusal, with buffers of every size for its text. */
static void try_refusal(struct call it, uint32_t wanted, const char *line) {
    static uint8_t out[ROOM];
    for (size_t room = 0; room <= strlen(line) + 1; room++) {
        rlibreg_answer answer;
        char *text = guarded(room);
        uint32_t status = plan(it, out, ROOM, text, room, &answer);
        size_t said = room < strlen(line) ? room : strlen(line);
        WANT(status == wanted && answer.status == wanted && answer.text == strlen(line));
        WANT(!memcmp(text, line, said) && answer.bytes == 0 && answer.count == 0);
        WANT(answer.file_refusal == (wanted == RLIBREG_BAD_FILE ? 1 : 0));
        check_guard(text, room);
    }
}

/* Tries several names, each followed by a byte 0. One of them is the empty name, which no library
 * has. */
static void try_names(const char *name) {
    char names[600] = { 0 };
    size_t one = strlen(name) + 1;
    memcpy(names, name, one);
    struct call empty = { 'p', "", 1 }, empty_behind = { 'p', names, one + 1 },
                cut = { 'p', name, one - 1 }, cut_behind = { 'p', names, 2 * one - 1 };
    try_refusal(empty, RLIBREG_NOT_INSTALLED, "refused C3 NotInstalled\n");
    try_refusal(empty_behind, RLIBREG_NOT_INSTALLED, "refused C3 NotInstalled\n");
    try_refusal(cut, RLIBREG_BAD_ARGUMENT, "");
    memcpy(names + one, name, one);
    try_refusal(cut_behind, RLIBREG_BAD_ARGUMENT, "");
}

/* ---- Reading, with buffers of every size */

static void try_listing(uint64_t libraries, uint64_t preloads, uint64_t generation,
                        const char *names, size_t names_length, const char *said) {
    rlibreg_answer answer;
    for (size_t entries = 0; entries <= libraries + preloads; entries++) {
        for (size_t room = 0; room <= names_length; room++) {
            int fits = entries == libraries + preloads && room == names_length;
            rlibreg_entry *list = guarded(entries * sizeof *list);
            char *out = guarded(room), *text = guarded(strlen(said));
            uint32_t status = rlibreg_list(disk, sizeof disk, list, entries, out, room, text,
                                           strlen(said), &answer);
            WANT(status == (fits ? RLIBREG_DONE : RLIBREG_BUFFER_TOO_SMALL));
            WANT(answer.status == status);
            WANT(answer.count == libraries && answer.preloads == preloads);
            WANT(answer.bytes == names_length && answer.generation == generation);
            WANT(answer.text == (fits ? strlen(said) : 0));
            if (fits) WANT(!memcmp(out, names, room) && !memcmp(text, said, strlen(said)));
            for (size_t i = 0; fits && i < entries; i++) {
                WANT(list[i].name_length == strlen(out + list[i].name));
                WANT((list[i].file_length != 0) == (i < libraries));
            }
            check_guard(list, entries * sizeof *list);
            check_guard(out, room);
            check_guard(text, strlen(said));
        }
    }
}

/* Returns whether an answer has these values, and 0 in every other field. */
static int is_answer(const rlibreg_answer *it, uint32_t status, uint64_t bytes, uint64_t text) {
    rlibreg_answer wanted = { .status = status, .bytes = bytes, .text = text };
    return !memcmp(it, &wanted, sizeof wanted);
}

static void try_file(const char *name, struct file wanted) {
    rlibreg_answer answer;
    for (size_t room = 0; room <= wanted.length + 1; room++) {
        uint8_t *bytes = guarded(room);
        uint32_t status =
            rlibreg_file(disk, sizeof disk, name, strlen(name), bytes, room, NULL, 0, &answer);
        WANT(status == (room < wanted.length ? RLIBREG_BUFFER_TOO_SMALL : RLIBREG_DONE));
        WANT(is_answer(&answer, status, wanted.length, 0));
        if (!status) WANT(!memcmp(bytes, wanted.bytes, wanted.length));
        check_guard(bytes, room);
    }
}

static void try_digest(const char *name, const char *wanted) {
    char digits[2 * RLIBREG_DIGEST_BYTES + 1];
    rlibreg_answer answer;
    uint8_t *digest = guarded(RLIBREG_DIGEST_BYTES);
    uint32_t status =
        rlibreg_digest(disk, sizeof disk, name, strlen(name), digest, NULL, 0, &answer);
    WANT(!status && is_answer(&answer, status, 0, 0));
    for (size_t i = 0; i < RLIBREG_DIGEST_BYTES; i++) sprintf(digits + 2 * i, "%02x", digest[i]);
    WANT(!strcmp(digits, wanted));
    check_guard(digest, RLIBREG_DIGEST_BYTES);
}

/* Requests a name that no library has, with buffers of every size for the text. */
static void try_no_file(const char *name, size_t length) {
    const char *line = "refused C3 NotInstalled\n";
    for (size_t room = 0; room <= strlen(line) + 1; room++) {
        rlibreg_answer answer;
        uint8_t *bytes = guarded(8);
        char *text = guarded(room);
        uint32_t status =
            rlibreg_file(disk, sizeof disk, name, length, bytes, 8, text, room, &answer);
        WANT(status == RLIBREG_NOT_INSTALLED && is_answer(&answer, status, 0, strlen(line)));
        WANT(!memcmp(text, line, room < strlen(line) ? room : strlen(line)));
        check_guard(text, room);
        text = guarded(room);
        status = rlibreg_digest(disk, sizeof disk, name, length, bytes, text, room, &answer);
        WANT(status == RLIBREG_NOT_INSTALLED && is_answer(&answer, status, 0, strlen(line)));
        WANT(!memcmp(text, line, room < strlen(line) ? room : strlen(line)));
        check_guard(bytes, 0);
        check_guard(text, room);
    }
}

/* Requests names that no library has: malformed names, and names that resemble the name of a
 * library. */
static void try_no_files(const char *name) {
    char names[1000];
    size_t length = strlen(name);
    memset(names, name[0], sizeof names);
    memcpy(names, name, length + 1);
    try_no_file(NULL, 0);
    try_no_file(names, length - 1);
    try_no_file(names, length + 1); /* with the byte 0 after it */
    try_no_file(names, sizeof names);
    names[0] ^= 0x80;
    try_no_file(names, length);
}

static void try_info(rlibreg_information wanted) {
    rlibreg_answer answer;
    rlibreg_information *it = guarded(sizeof *it);
    WANT(!rlibreg_info(disk, sizeof disk, it, NULL, 0, &answer));
    WANT(!memcmp(it, &wanted, sizeof wanted) && is_answer(&answer, RLIBREG_DONE, 0, 0));
    check_guard(it, sizeof *it);
}

/* Checks that without a registry no call returns anything, and that each call writes only the
 * text. */
static void try_nothing_told(size_t length, uint32_t wanted, const char *line) {
    char text[64];
    rlibreg_answer answer;
    rlibreg_information *it = guarded(sizeof *it);
    WANT(rlibreg_info(disk, length, it, text, sizeof text, &answer) == wanted);
    WANT(is_answer(&answer, wanted, 0, strlen(line)) && !memcmp(text, line, strlen(line)));
    memset(text, 0, sizeof text);
    WANT(rlibreg_file(disk, length, "", 0, (uint8_t *)it, sizeof *it, text, sizeof text, &answer) ==
         wanted);
    WANT(is_answer(&answer, wanted, 0, strlen(line)) && !memcmp(text, line, strlen(line)));
    memset(text, 0, sizeof text);
    WANT(rlibreg_digest(disk, length, "", 0, (uint8_t *)it, text, sizeof text, &answer) == wanted);
    WANT(is_answer(&answer, wanted, 0, strlen(line)) && !memcmp(text, line, strlen(line)));
    check_guard(it, 0);
}

/* An image, and the sizes of its buffers. */
struct image {
    rlibreg_object *objects;
    rlibreg_segment *segments;
    uint8_t *bytes;
    size_t object_room, segment_room, room;
};

static uint32_t bind_into(struct file program, struct image it, rlibreg_answer *answer) {
    return rlibreg_bind(disk, sizeof disk, program.bytes, program.length, 0x10000, it.objects,
                        it.object_room, it.segments, it.segment_room, it.bytes, it.room, NULL, 0,
                        answer);
}

/* Checks an image that has one library, which needs no other. */
static void check_image(struct image it, const rlibreg_answer *answer, const char *library) {
    uint64_t at = 0, segment = 0;
    const char *names[] = { "/program", library };
    WANT(answer->count > 1 && answer->objects == 2 && answer->text == 0);
    for (size_t i = 0; i < answer->count; i++) {
        const rlibreg_segment *one = &it.segments[i];
        WANT(one->offset == at && one->permissions < 8);
        if (i) WANT(one[-1].address + one[-1].length <= one->address);
        at += one->length;
    }
    for (size_t i = 0; i < 2; i++) {
        const rlibreg_object *one = &it.objects[i];
        WANT(one->name == at && !strcmp((char *)it.bytes + at, names[i]));
        WANT(one->name_length == strlen(names[i]) && one->first_segment == segment);
        WANT(one->base % 4096 == 0 && one->base <= it.segments[segment].address);
        at += one->name_length + 1;
        segment += one->segments;
    }
    WANT(at == answer->bytes && segment == answer->count);
    WANT(it.objects[0].base == 0x10000 && it.objects[1].base > 0x10000);
}

static void try_room(struct file program, const struct image *whole, const rlibreg_answer *wanted,
                     struct image it) {
    rlibreg_answer answer;
    int fits = it.object_room == wanted->objects && it.segment_room == wanted->count &&
               it.room == wanted->bytes;
    size_t objects = it.object_room * sizeof *it.objects,
           segments = it.segment_room * sizeof *it.segments;
    it.objects = guarded(objects);
    it.segments = guarded(segments);
    it.bytes = guarded(it.room);
    uint32_t status = bind_into(program, it, &answer);
    WANT(status == (fits ? RLIBREG_DONE : RLIBREG_BUFFER_TOO_SMALL) && answer.status == status);
    WANT(answer.objects == wanted->objects && answer.count == wanted->count);
    WANT(answer.bytes == wanted->bytes);
    if (fits)
        WANT(!memcmp(it.bytes, whole->bytes, it.room) &&
             !memcmp(it.segments, whole->segments, segments) &&
             !memcmp(it.objects, whole->objects, objects));
    check_guard(it.objects, objects);
    check_guard(it.segments, segments);
    check_guard(it.bytes, it.room);
}

static void try_image(struct file program, const char *library) {
    static rlibreg_object objects[8];
    static rlibreg_segment segments[64];
    static uint8_t bytes[ROOM];
    struct image whole = { objects, segments, bytes, 8, 64, ROOM }, it = { 0 };
    rlibreg_answer answer;
    WANT(!bind_into(program, whole, &answer));
    check_image(whole, &answer, library);
    for (; it.object_room <= answer.objects; it.object_room++)
        for (it.segment_room = 0; it.segment_room <= answer.count; it.segment_room++)
            for (it.room = 0; it.room <= answer.bytes; it.room++) {
                int is_last = it.segment_room == answer.count && it.object_room == answer.objects;
                try_room(program, &whole, &answer, it);
                if (it.room + 40 < answer.bytes && !is_last) it.room += answer.bytes / 8;
            }
}

/* ---- Bindings and executable files, which have one call each */

static uint32_t give(char what, struct file program, uint64_t base, void *bytes, size_t room,
                     char *text, size_t text_room, rlibreg_answer *answer) {
    if (what == 'b')
        return rlibreg_bindings(disk, sizeof disk, program.bytes, program.length, base, bytes, room,
                                text, text_room, answer);
    return rlibreg_executable(disk, sizeof disk, program.bytes, program.length, base, bytes, room,
                              text, text_room, answer);
}

/* Checks that a call returns the bytes `given` with the status `wanted`, with buffers of every
 * size. If the buffer is too small, the call writes nothing. */
static void try_given(char what, struct file program, uint32_t wanted, const void *given,
                      size_t length, uint64_t count) {
    for (size_t room = 0; room <= length + 1; room++) {
        uint8_t *bytes = guarded(room);
        int fits = room >= length;
        rlibreg_answer answer, all = { .bytes = length, .count = count };
        all.status = fits ? wanted : RLIBREG_BUFFER_TOO_SMALL;
        WANT(give(what, program, 0x10000, bytes, room, NULL, 0, &answer) == all.status);
        WANT(!memcmp(&answer, &all, sizeof all));
        if (fits) WANT(!memcmp(bytes, given, length));
        check_guard(bytes, fits ? length : 0);
        if (room > 64 && room + length / 64 < length) room += length / 64;
    }
}

/* Checks, with buffers of every size for the text, that a call returns nothing: the buffer stays
 * unchanged, and the text has the reason. */
static void try_not_given(char what, struct file program, uint64_t base, uint32_t wanted,
                          const char *line) {
    for (size_t room = 0; room <= strlen(line) + 1; room++) {
        rlibreg_answer answer;
        uint8_t *bytes = guarded(ROOM);
        char *text = guarded(room);
        WANT(give(what, program, base, bytes, ROOM, text, room, &answer) == wanted);
        WANT(answer.status == wanted && answer.text == strlen(line) && !answer.bytes);
        WANT(!answer.count && (answer.file_refusal != 0) == (wanted == RLIBREG_BAD_PROGRAM));
        WANT(!memcmp(text, line, room < strlen(line) ? room : strlen(line)));
        check_guard(bytes, 0);
        check_guard(text, room);
    }
}

/* Checks that neither call returns anything, and that both report the same line as a bind. */
static void try_none_given(struct file program, uint64_t base, uint32_t wanted, const char *line) {
    try_not_given('b', program, base, wanted, line);
    try_not_given('x', program, base, wanted, line);
}

/* Checks that without its library a program has no executable, and that its bindings report the
 * missing name. */
static void try_lacking(struct file program, const char *library) {
    char missing[600], said[2000];
    snprintf(missing, sizeof missing, "refused B3 Missing /program %s\n", library);
    const char *form = "found /program\nneeds %s\nmissing %s /program\nend\n";
    int length = snprintf(said, sizeof said, form, library, library);
    try_given('b', program, RLIBREG_MISSING, said, (size_t)length, 0);
    try_not_given('x', program, 0x10000, RLIBREG_MISSING, missing);
}

/* Checks the bindings of a program with its library. No relocation names a symbol of this
 * library. */
static void try_bindings(struct file program, const char *library) {
    char said[2000];
    const char *form = "object 0x%016x /program\nneeds %s\nobject 0x%016x %s\nend\n";
    int length = snprintf(said, sizeof said, form, 0x10000, library, 0x11000, library);
    try_given('b', program, RLIBREG_DONE, said, (size_t)length, 0);
}

/* Returns a copy of a program that has an entry, at its second byte, in memory that may be
 * executed. */
static struct file with_entry(struct file program) {
    struct file it = { malloc(program.length), program.length };
    WANT(it.bytes && program.length > 64 + 56);
    memcpy(it.bytes, program.bytes, program.length);
    it.bytes[24] = 1;                                    /* e_entry */
    for (int i = 0; i < 2; i++) it.bytes[64 + 56 * i + 4] |= 1; /* p_flags: PF_X */
    return it;
}

/* Checks the executable file of a program: it has the type ET_EXEC, the program's entry, and as
 * many headers as the answer counts. */
static void try_executable(struct file program) {
    static uint8_t bytes[ROOM];
    rlibreg_answer answer;
    struct file it = with_entry(program);
    try_not_given('x', program, 0x10000, RLIBREG_NO_ENTRY, "refused NoEntry\n");
    WANT(!give('x', it, 0x10000, bytes, ROOM, NULL, 0, &answer));
    WANT(!memcmp(bytes, "\177ELF", 4) && bytes[16] == 2 && bytes[24] == 1 && bytes[26] == 1);
    WANT(answer.count == bytes[56] && answer.count > 3 && answer.bytes % 4096 == 0);
    try_given('x', it, RLIBREG_DONE, bytes, answer.bytes, answer.count);
    free(it.bytes);
}

static void try_bind_refusal(struct file program, uint64_t base, uint32_t wanted,
                             const char *line) {
    char text[256];
    rlibreg_answer answer;
    uint32_t status = rlibreg_bind(disk, sizeof disk, program.bytes, program.length, base, NULL, 0,
                                   NULL, 0, NULL, 0, text, sizeof text, &answer);
    WANT(status == wanted && answer.text == strlen(line) && !memcmp(text, line, strlen(line)));
    if (wanted != RLIBREG_MISSING) try_none_given(program, base, wanted, line);
}

/* ---- Damaged bytes */

static int is_status(uint32_t status) {
    return status <= RLIBREG_BAD_ARGUMENT || strcmp(rlibreg_status_name(status), "unknown");
}

/* Flips some bits of the disk, more in each of four rounds. Returns the state of the random
 * numbers. */
static unsigned damage(unsigned random, int round) {
    for (int i = 0; i < 1 + round % 4; i++) {
        random = random * 1103515245 + 12345;
        disk[(random >> 8) % sizeof disk] ^= (uint8_t)(1u << (random >> 4) % 8);
    }
    return random;
}

static void try_damaged(struct file program, struct file library) {
    static rlibreg_entry entries[64];
    static rlibreg_object objects[64];
    static rlibreg_segment segments[64];
    static uint8_t kept[sizeof disk], bytes[ROOM];
    static char names[ROOM], text[ROOM];
    rlibreg_answer answer;
    unsigned random = 1, refused = 0;
    memcpy(kept, disk, sizeof disk);
    for (int round = 0; round < 3000; round++) {
        random = damage(random, round);
        uint32_t listed =
            rlibreg_list(disk, sizeof disk, entries, 64, names, ROOM, text, ROOM, &answer);
        WANT(is_status(listed) && listed == answer.status && listed != RLIBREG_BAD_ARGUMENT);
        refused += listed == RLIBREG_DAMAGED;
        uint32_t bound = rlibreg_bind(disk, sizeof disk, program.bytes, program.length, 0x10000,
                                      objects, 64, segments, 64, bytes, ROOM, text, ROOM, &answer);
        WANT(is_status(bound) && bound != RLIBREG_BAD_ARGUMENT);
        WANT(bound == give('b', program, 0x10000, bytes, ROOM, text, ROOM, &answer));
        WANT((bound ? bound : RLIBREG_NO_ENTRY) ==
             give('x', program, 0x10000, bytes, ROOM, text, ROOM, &answer));
        rlibreg_information told;
        uint32_t informed = rlibreg_info(disk, sizeof disk, &told, text, ROOM, &answer);
        WANT(informed ? is_status(informed) && listed == informed
                      : !listed || listed == RLIBREG_DAMAGED);
        uint32_t given =
            rlibreg_file(disk, sizeof disk, names, 1, bytes, ROOM, text, ROOM, &answer);
        WANT(informed ? given == informed : !given || given == RLIBREG_NOT_INSTALLED);
        WANT(given == rlibreg_digest(disk, sizeof disk, names, 1, bytes, text, ROOM, &answer));
        struct call replace = { 'r', library.bytes, library.length };
        WANT(is_status(plan(replace, bytes, ROOM, text, ROOM, &answer)));
        struct call upgrade = { 'u', NULL, 0 };
        WANT(is_status(plan(upgrade, bytes, ROOM, text, ROOM, &answer)));
        if (round % 4 == 3) memcpy(disk, kept, sizeof disk);
    }
    WANT(refused > 100); /* the damage is noticed */
    memcpy(disk, kept, sizeof disk);
}

/* ---- No bytes, and bytes that aren't whole sectors */

static void try_lengths(void) {
    char text[64];
    rlibreg_answer answer;
    const char *line = "refused S6 BadGeometry\n";
    try_nothing_told(sizeof disk - 1, RLIBREG_BAD_GEOMETRY, line);
    try_nothing_told(0, RLIBREG_BAD_GEOMETRY, line);
    for (size_t length = 0; length < 8 * SECTOR; length += 61) {
        uint32_t status = rlibreg_list(length ? disk : NULL, length, NULL, 0, NULL, 0, text,
                                       sizeof text, &answer);
        WANT(status == RLIBREG_BAD_GEOMETRY && answer.text == strlen(line));
        WANT(!memcmp(text, line, strlen(line)));
        WANT(rlibreg_plan_format(disk, length, NULL, 0, text, sizeof text, &answer) == status);
        WANT(rlibreg_plan_upgrade(disk, length, NULL, 0, NULL, 0, &answer) == status);
        WANT(rlibreg_bind(disk, length, NULL, 0, 0, NULL, 0, NULL, 0, NULL, 0, NULL, 0, &answer) ==
             status);
        WANT(rlibreg_bindings(disk, length, NULL, 0, 0, NULL, 0, NULL, 0, &answer) == status);
        WANT(rlibreg_executable(disk, length, NULL, 0, 0, NULL, 0, NULL, 0, &answer) == status);
    }
}

/* ---- A registry, from the first call to the last */

struct given {
    struct file library, other, program;
    const char *name;   /* SONAME of the first two, followed by a byte 0 */
    const char *digest; /* digest of the first, in hexadecimal */
};

static struct call install_of(struct file file) {
    return (struct call){ 'i', file.bytes, file.length };
}

static struct call replace_by(struct file file) {
    return (struct call){ 'r', file.bytes, file.length };
}

static void try_empty(const struct given *it) {
    char missing[600];
    struct call format = { 'f', NULL, 0 };
    snprintf(missing, sizeof missing, "refused B3 Missing /program %s\n", it->name);
    try_refusal(install_of(it->library), RLIBREG_NOT_FORMATTED, "refused S3 NotFormatted\n");
    try_none_given(it->program, 0x10000, RLIBREG_NOT_FORMATTED, "refused S3 NotFormatted\n");
    try_nothing_told(sizeof disk, RLIBREG_NOT_FORMATTED, "refused S3 NotFormatted\n");
    try_steps(format, 3); /* a sync, the root, a sync */
    try_plan(format);
    try_refusal(format, RLIBREG_ALREADY_FORMATTED, "refused S4 AlreadyFormatted\n");
    try_listing(0, 0, 0, "", 0, "end\n");
    try_info((rlibreg_information){ 2, SECTORS, 0, 0, 0, 38, 1, 35 * SECTOR });
    try_bind_refusal(it->program, 0x10000, RLIBREG_MISSING, missing);
    try_lacking(it->program, it->name);
    try_bind_refusal(it->program, 0x10001, RLIBREG_BAD_BASE, "refused B2 BadBase\n");
    try_bind_refusal((struct file){ NULL, 0 }, 0, RLIBREG_BAD_PROGRAM, "refused B1 E1 TooShort\n");
}

static void try_installed(const struct given *it) {
    char said[600];
    struct file short_file = { it->library.bytes, 63 };
    try_refusal(install_of(short_file), RLIBREG_BAD_FILE, "refused C1 E1 TooShort\n");
    try_refusal(replace_by(it->other), RLIBREG_NOT_INSTALLED, "refused C3 NotInstalled\n");
    try_plan(install_of(it->library));
    try_refusal(install_of(it->library), RLIBREG_ALREADY_INSTALLED,
                "refused C2 AlreadyInstalled\n");
    snprintf(said, sizeof said, "library %s %zu\nend\n", it->name, it->library.length);
    try_listing(1, 0, 1, it->name, strlen(it->name) + 1, said);
    try_info((rlibreg_information){ 2, SECTORS, 1, 1, 0, 35, 1, 33 * SECTOR });
    try_file(it->name, it->library);
    try_digest(it->name, it->digest);
    try_no_files(it->name);
    try_image(it->program, it->name);
    try_bindings(it->program, it->name);
    try_executable(it->program);
    try_bind_refusal(it->program, 0x7ffffffff000, RLIBREG_ADDRESS_TOO_HIGH, "refused B4 NoRoom\n");
}

static void try_changed(const struct given *it) {
    char names[600], said[600];
    size_t one = strlen(it->name) + 1;
    struct call preload = { 'p', it->name, one }, remove = { 'd', it->name, one - 1 };
    memcpy(names, it->name, one);
    memcpy(names + one, it->name, one);
    try_plan(replace_by(it->other));
    try_plan(preload);
    snprintf(said, sizeof said, "library %s %zu\npreload %s\nend\n", it->name, it->other.length,
             it->name);
    try_listing(1, 1, 3, names, 2 * one, said);
    try_info((rlibreg_information){ 2, SECTORS, 3, 1, 1, 35, 2, 33 * SECTOR });
    try_file(it->name, it->other);
    try_refusal(remove, RLIBREG_IN_PRELOADS, "refused C4 InPreloads\n");
    try_names(it->name);
    try_damaged(it->program, it->library);
}

static void try_removed(const struct given *it) {
    struct call none = { 'p', NULL, 0 }, upgrade = { 'u', NULL, 0 }, no_name = { 'd', NULL, 0 },
                remove = { 'd', it->name, strlen(it->name) }, with_0 = remove;
    with_0.length++;
    try_refusal(no_name, RLIBREG_NOT_INSTALLED, "refused C3 NotInstalled\n");
    try_refusal(with_0, RLIBREG_NOT_INSTALLED, "refused C3 NotInstalled\n");
    try_plan(none);
    try_plan(upgrade);
    try_plan(remove);
    try_listing(0, 0, 5, "", 0, "end\n");
    try_info((rlibreg_information){ 2, SECTORS, 5, 0, 0, 38, 1, 35 * SECTOR });
    try_no_file(it->name, strlen(it->name));
    try_refusal(remove, RLIBREG_NOT_INSTALLED, "refused C3 NotInstalled\n");
}

int main(int argc, char **argv) {
    WANT(argc == 6);
    struct given it = { read_file(argv[1]), read_file(argv[2]), read_file(argv[3]), argv[4],
                        argv[5] };
    try_lengths();
    try_empty(&it);
    try_installed(&it);
    try_changed(&it);
    try_removed(&it);
    WANT(!strcmp(rlibreg_status_name(0), "done") && !strcmp(rlibreg_status_name(7), "unknown"));
    free(it.library.bytes);
    free(it.other.bytes);
    free(it.program.bytes);
    puts("calls: buffers of every size, damaged bytes, and refusals: as wanted");
    return 0;
}

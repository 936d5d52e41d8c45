/* The calls that read a registry and put their result into new buffers. rlibreg.h is the manual. */
#define _GNU_SOURCE
#include "rlibreg_registry.h"

#include <stdlib.h>
#include <string.h>

enum { FIRST_FILE = 1 << 16 };

/* Lists the libraries and the preloads. Puts the listing into new buffers, for `entries` entries
 * and `names` bytes of names. Returns a status. */
static uint32_t list(rlibreg *it, rlibreg_listing *out, size_t entries, size_t names) {
    out->entries = malloc(entries * sizeof *out->entries);
    out->names = malloc(names);
    if (!out->entries || !out->names) return rlibreg_say_memory(it);
    return rlibreg_list(it->file.bytes, it->file.length, out->entries, entries, out->names, names,
                        it->text, it->text_room, &it->answer);
}

uint32_t rlibreg_get_listing(rlibreg *it, rlibreg_listing *out) {
    size_t entries = 64, names = 4096;
    *out = (rlibreg_listing){ 0 };
    uint32_t status = rlibreg_refuse(it);
    if (status) return status;
    for (;;) {
        status = list(it, out, entries, names);
        int again = rlibreg_text_was_cut(it) || status == RLIBREG_BUFFER_TOO_SMALL;
        if (!status && !again) break;
        rlibreg_listing_free(out);
        if (!again) return status;
        if (status != RLIBREG_BUFFER_TOO_SMALL) continue;
        entries = it->answer.count + it->answer.preloads;
        names = it->answer.bytes;
    }
    out->generation = it->answer.generation;
    out->libraries = it->answer.count;
    out->preloads = it->answer.preloads;
    return RLIBREG_DONE;
}

void rlibreg_listing_free(rlibreg_listing *it) {
    free(it->entries);
    free(it->names);
    *it = (rlibreg_listing){ 0 };
}

/* A call that writes the result of a request to the buffer `out` of `room` bytes. */
typedef uint32_t give_call(rlibreg *it, const struct asked *what, void *out, size_t room);

void *rlibreg_fitting(void *block, size_t bytes) {
    void *it = realloc(block, bytes ? bytes : 1);
    return it ? it : block;
}

/* Makes a request, whose result is never empty. Returns a status, and the result in `bytes`,
 * followed by a byte 0. The first buffer has room for `first` bytes or, if this memory is refused,
 * for a small file. */
static uint32_t give(rlibreg *it, give_call *call, struct asked what, size_t first, void **bytes,
                     size_t *length) {
    *bytes = NULL;
    *length = 0;
    uint32_t status = rlibreg_refuse(it);
    if (status) return status;
    char *out = malloc(first + 1);
    size_t room = out ? first : FIRST_FILE;
    if (!out && first > room) out = malloc(room + 1);
    for (; out; out = malloc(room + 1)) {
        status = call(it, &what, out, room);
        int again = rlibreg_text_was_cut(it) || status == RLIBREG_BUFFER_TOO_SMALL;
        if (!again && it->answer.bytes) {
            *length = it->answer.bytes;
            out[*length] = 0;
            *bytes = rlibreg_fitting(out, *length + 1);
            return status;
        }
        free(out);
        if (!again) return status;
        if (status == RLIBREG_BUFFER_TOO_SMALL) room = it->answer.bytes;
    }
    return rlibreg_say_memory(it);
}

static uint32_t give_file(rlibreg *it, const struct asked *what, void *out, size_t room) {
    return rlibreg_file(it->file.bytes, it->file.length, what->bytes, what->length, out, room,
                        it->text, it->text_room, &it->answer);
}

static uint32_t give_bindings(rlibreg *it, const struct asked *what, void *out, size_t room) {
    return rlibreg_bindings(it->file.bytes, it->file.length, what->bytes, what->length, what->base,
                            out, room, it->text, it->text_room, &it->answer);
}

static uint32_t give_executable(rlibreg *it, const struct asked *what, void *out, size_t room) {
    return rlibreg_executable(it->file.bytes, it->file.length, what->bytes, what->length,
                              what->base, out, room, it->text, it->text_room, &it->answer);
}

uint32_t rlibreg_get_file(rlibreg *it, const char *name, void **bytes, size_t *length) {
    struct asked what = { name, strlen(name), 0 };
    return give(it, give_file, what, FIRST_FILE, bytes, length);
}

uint32_t rlibreg_get_bindings(rlibreg *it, const void *program, size_t length, uint64_t base,
                              char **bindings, size_t *bytes) {
    void *given;
    struct asked what = { program, length, base };
    uint32_t status = give(it, give_bindings, what, FIRST_FILE, &given, bytes);
    *bindings = given;
    return status;
}

uint32_t rlibreg_get_executable(rlibreg *it, const void *program, size_t length, uint64_t base,
                                void **file, size_t *bytes) {
    struct asked what = { program, length, base };
    return give(it, give_executable, what, FIRST_BYTES, file, bytes);
}

uint32_t rlibreg_get_digest(rlibreg *it, const char *name,
                            uint8_t digest[RLIBREG_DIGEST_BYTES]) {
    uint32_t status = rlibreg_refuse(it);
    if (status) return status;
    do {
        status = rlibreg_digest(it->file.bytes, it->file.length, name, strlen(name), digest,
                                it->text, it->text_room, &it->answer);
    } while (rlibreg_text_was_cut(it));
    return status;
}

uint32_t rlibreg_get_info(rlibreg *it, rlibreg_information *out) {
    uint32_t status = rlibreg_refuse(it);
    if (status) return status;
    do {
        status = rlibreg_info(it->file.bytes, it->file.length, out, it->text, it->text_room,
                              &it->answer);
    } while (rlibreg_text_was_cut(it));
    return status;
}

/* Checks the libraries. Puts the findings into new buffers, for `libraries` findings and `names`
 * bytes of names. Returns a status. */
static uint32_t check(rlibreg *it, rlibreg_findings *out, size_t libraries, size_t names) {
    out->findings = malloc(libraries * sizeof *out->findings);
    out->names = malloc(names);
    if (!out->findings || !out->names) return rlibreg_say_memory(it);
    return rlibreg_check(it->file.bytes, it->file.length, out->findings, libraries, out->names,
                         names, it->text, it->text_room, &it->answer);
}

uint32_t rlibreg_check_libraries(rlibreg *it, rlibreg_findings *out) {
    size_t libraries = 64, names = 4096;
    *out = (rlibreg_findings){ 0 };
    uint32_t status = rlibreg_refuse(it);
    if (status) return status;
    for (;;) {
        status = check(it, out, libraries, names);
        int again = rlibreg_text_was_cut(it) || status == RLIBREG_BUFFER_TOO_SMALL;
        if (!status && !again) break;
        rlibreg_findings_free(out);
        if (!again) return status;
        if (status != RLIBREG_BUFFER_TOO_SMALL) continue;
        libraries = it->answer.count;
        names = it->answer.bytes;
    }
    out->count = it->answer.count;
    return RLIBREG_DONE;
}

void rlibreg_findings_free(rlibreg_findings *it) {
    free(it->findings);
    free(it->names);
    *it = (rlibreg_findings){ 0 };
}

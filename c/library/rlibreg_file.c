/* Opens and closes the file of a registry. rlibreg.h is the manual. */
#define _GNU_SOURCE
#include "rlibreg_registry.h"
#include "rlibreg_turn.h"

#include <stdlib.h>

enum { FIRST_TEXT = 4096 };

rlibreg *rlibreg_create(void) {
    rlibreg *it = calloc(1, sizeof *it);
    char *text = malloc(FIRST_TEXT);
    if (!it || !text) {
        free(it);
        free(text);
        return NULL;
    }
    it->file = NO_DISK_FILE;
    it->place.folder = -1;
    it->limit = -1;
    it->text = text;
    it->text_room = FIRST_TEXT;
    it->text[0] = 0;
    return it;
}

void rlibreg_let_go(rlibreg *it) {
    rlibreg_place_end(&it->place);
    rlibreg_disk_file_close(&it->file);
    it->may_change = it->has_failed = 0;
}

void rlibreg_close(rlibreg *it) {
    if (!it) return;
    int before = rlibreg_begin_call();
    rlibreg_let_go(it);
    free(it->text);
    free(it);
    rlibreg_end_call(before);
}

int rlibreg_descriptor(const rlibreg *it) {
    return it->file.fd;
}

/* Returns whether the file was opened by another process, of which this process is a child. */
static int is_inherited(const rlibreg *it) {
    return it->file.fd >= 0 && !rlibreg_is_this_process(&it->file.owner);
}

void rlibreg_set_wait_limit(rlibreg *it, int milliseconds) {
    it->limit = milliseconds;
}

void rlibreg_begin_waiting(rlibreg *it) {
    it->file.until = it->limit < 0 ? RLIBREG_NO_END : rlibreg_moment_in(it->limit);
}

uint32_t rlibreg_open_file(rlibreg *it, const char *path, unsigned flags) {
    uint32_t status = rlibreg_disk_file_open(&it->file, path, flags);
    if (!status && flags & RLIBREG_READ_WRITE && rlibreg_place_take(&it->place, path))
        status = RLIBREG_SYSTEM;
    if (status) rlibreg_let_go(it);
    it->may_change = !status && flags & RLIBREG_READ_WRITE;
    return rlibreg_say(it, status, "");
}

uint32_t rlibreg_open(rlibreg *it, const char *path, unsigned flags) {
    if (it->file.fd >= 0) return rlibreg_say(it, RLIBREG_BAD_ARGUMENT, "");
    int before = rlibreg_begin_call();
    rlibreg_begin_waiting(it);
    uint32_t status = rlibreg_open_file(it, path, flags);
    rlibreg_end_call(before);
    return status;
}

uint32_t rlibreg_fail(rlibreg *it) {
    it->has_failed = 1;
    return rlibreg_say(it, RLIBREG_DEVICE, "refused S1 Device\n");
}

uint32_t rlibreg_refuse(rlibreg *it) {
    if (is_inherited(it)) return rlibreg_say(it, RLIBREG_BAD_ARGUMENT, "");
    if (it->has_failed) return rlibreg_say(it, RLIBREG_REOPEN, "refused S2 Reopen\n");
    rlibreg_disk_file_use(&it->file);
    return it->file.fd < 0 || rlibreg_has_length(&it->file) ? RLIBREG_DONE : rlibreg_fail(it);
}

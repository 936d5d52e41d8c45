/* The changes of a registry: each is planned over bytes, and the plan is carried out on the file.
 * rlibreg.h is the manual. */
#define _GNU_SOURCE
#include "rlibreg_registry.h"

#include <errno.h>
#include <stdlib.h>
#include <string.h>
#include <sys/stat.h>

enum { SMALL_PLAN = 40 };

static uint32_t plan_upgrade(rlibreg *it, const void *asked, size_t length, uint8_t *plan,
                             size_t room) {
    (void)asked, (void)length;
    return rlibreg_plan_upgrade(it->file.bytes, it->file.length, plan, room, it->text,
                                it->text_room, &it->answer);
}

static uint32_t plan_install(rlibreg *it, const void *asked, size_t length, uint8_t *plan,
                             size_t room) {
    return rlibreg_plan_install(it->file.bytes, it->file.length, asked, length, plan, room,
                                it->text, it->text_room, &it->answer);
}

static uint32_t plan_replace(rlibreg *it, const void *asked, size_t length, uint8_t *plan,
                             size_t room) {
    return rlibreg_plan_replace(it->file.bytes, it->file.length, asked, length, plan, room,
                                it->text, it->text_room, &it->answer);
}

static uint32_t plan_remove(rlibreg *it, const void *asked, size_t length, uint8_t *plan,
                            size_t room) {
    return rlibreg_plan_remove(it->file.bytes, it->file.length, asked, length, plan, room, it->text,
                               it->text_room, &it->answer);
}

static uint32_t plan_preload(rlibreg *it, const void *asked, size_t length, uint8_t *plan,
                             size_t room) {
    return rlibreg_plan_preload(it->file.bytes, it->file.length, asked, length, plan, room,
                                it->text, it->text_room, &it->answer);
}

/* Plans a change, in a buffer of the size that the plan needs. Returns a status. The caller frees
 * the plan, which is null if the status isn't 0. */
static uint32_t make_plan(rlibreg *it, plan_call *call, const void *asked, size_t length,
                          uint8_t **plan) {
    size_t room = (length / SECTOR + 1 + SMALL_PLAN) * (STEP_NUMBER + SECTOR);
    for (;;) {
        *plan = malloc(room);
        if (!*plan) return rlibreg_say_memory(it);
        uint32_t status = call(it, asked, length, *plan, room);
        int again = rlibreg_text_was_cut(it) || status == RLIBREG_BUFFER_TOO_SMALL;
        if (!status && !again) return status;
        free(*plan);
        *plan = NULL;
        if (!again) return status;
        if (status == RLIBREG_BUFFER_TOO_SMALL) room = it->answer.bytes;
    }
}

/* Returns whether the file has become a standard stream since it was opened, or can't be
 * examined. */
static int is_stream(const rlibreg *it) {
    struct stat found;
    return fstat(it->file.fd, &found) || rlibreg_stream_of_file(&found) >= 0;
}

/* Plans a change and carries it out. Returns a status. Checks the file before and after the change,
 * because it may have been shortened or replaced. */
static uint32_t change_file(rlibreg *it, plan_call *call, const void *asked, size_t length) {
    uint8_t *plan;
    uint32_t status = rlibreg_refuse(it);
    if (status) return status;
    if (!it->may_change) return rlibreg_say(it, RLIBREG_READ_ONLY, "");
    if (is_stream(it)) return rlibreg_say_system(it);
    if (!rlibreg_is_in_place(&it->place, &it->file)) return rlibreg_fail(it);
    status = make_plan(it, call, asked, length, &plan);
    if (status) return status;
    int has_failed = rlibreg_carry_out(&it->file, plan, it->answer.bytes) != 0 ||
                     !rlibreg_is_in_place(&it->place, &it->file);
    int why = errno;
    free(plan);
    errno = why;
    return has_failed ? rlibreg_fail(it) : RLIBREG_DONE;
}

uint32_t rlibreg_make_change(rlibreg *it, plan_call *call, const void *asked, size_t length) {
    int before = rlibreg_begin_call();
    uint32_t status = change_file(it, call, asked, length);
    rlibreg_end_call(before);
    return status;
}

uint32_t rlibreg_upgrade(rlibreg *it) {
    return rlibreg_make_change(it, plan_upgrade, NULL, 0);
}

uint32_t rlibreg_install(rlibreg *it, const void *file, size_t length) {
    return rlibreg_make_change(it, plan_install, file, length);
}

uint32_t rlibreg_replace(rlibreg *it, const void *file, size_t length) {
    return rlibreg_make_change(it, plan_replace, file, length);
}

uint32_t rlibreg_remove(rlibreg *it, const char *name) {
    return rlibreg_make_change(it, plan_remove, name, strlen(name));
}

uint32_t rlibreg_preload(rlibreg *it, const char *const *names, size_t count) {
    size_t length = 0, at = 0;
    for (size_t i = 0; i < count; i++) length += strlen(names[i]) + 1;
    char *all = malloc(length + 1);
    if (!all) return rlibreg_say_memory(it);
    for (size_t i = 0; i < count; i++) {
        strcpy(all + at, names[i]);
        at += strlen(names[i]) + 1;
    }
    uint32_t status = rlibreg_make_change(it, plan_preload, all, length);
    int why = errno;
    free(all);
    errno = why;
    return status;
}

static uint32_t plan_update(rlibreg *it, const void *asked, size_t length, uint8_t *plan,
                            size_t room) {
    const struct update *update = asked;
    (void)length;
    return rlibreg_plan_update(it->file.bytes, it->file.length, update->changes, update->count,
                               update->bytes, update->length, plan, room, it->text, it->text_room,
                               &it->answer);
}

/* Returns the maximum number of bytes that an update writes in addition to those for which each
 * plan has room: for each change, its bytes, the rest of their last sector, and an entry. */
static size_t written_by(const struct update *it) {
    return it->length + it->count * 2 * SECTOR;
}

uint32_t rlibreg_make_update_plan(rlibreg *it, const struct update *asked, uint8_t **plan) {
    return make_plan(it, plan_update, asked, written_by(asked), plan);
}

uint32_t rlibreg_update(rlibreg *it, const rlibreg_change *changes, size_t count,
                        const void *bytes, size_t length) {
    const struct update asked = { changes, count, bytes, length };
    return rlibreg_make_change(it, plan_update, &asked, written_by(&asked));
}

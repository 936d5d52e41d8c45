/* The calls over a file, in C over the calls over bytes: the declarations that their parts share.
 * rlibreg.h is the manual of the calls. Users don't need this file. */
#ifndef RLIBREG_REGISTRY_H
#define RLIBREG_REGISTRY_H

#include "rlibreg_disk_file.h"

/* SECTOR: the number of bytes of a sector. STEP_NUMBER: the number of bytes before the sector of a
 * step of a plan. FIRST_BYTES: the room for the bytes of most images. */
enum { SECTOR = 512, STEP_NUMBER = 4, FIRST_BYTES = 16 << 20 };

struct rlibreg {
    struct disk_file file;
    struct place place; /* path of the file, if it was opened for changes */
    int may_change; /* whether the file is open for changes */
    int has_failed; /* whether a write or a sync failed */
    int limit;      /* milliseconds to wait for a lock; less than 0: without a limit */
    char *text;     /* text of the last answer, followed by a byte 0 */
    size_t text_room;
    rlibreg_answer answer;
    int why; /* errno of the last answer, if no call over bytes made it */
};

/* ---- Cancellation (rlibreg_cancellation.c) */

/* Begins a call: disables cancellation. Returns the former state of cancellation, which
 * rlibreg_end_call restores. */
int rlibreg_begin_call(void);
void rlibreg_end_call(int before);

/* ---- Answers (rlibreg_answer.c) */

/* Sets the answer of a call that made no call over bytes: `status` and `text`. Returns `status`. */
uint32_t rlibreg_say(rlibreg *it, uint32_t status, const char *text);

/* Set the answers RLIBREG_SYSTEM and RLIBREG_OUT_OF_MEMORY, and return them. */
uint32_t rlibreg_say_system(rlibreg *it);
uint32_t rlibreg_say_memory(rlibreg *it);

/* Ends the text of the last call with a byte 0. If the text was cut, makes the buffer larger and
 * returns 1, and the caller has to repeat the call. If there is no memory for a larger buffer, the
 * text stays cut. */
int rlibreg_text_was_cut(rlibreg *it);

/* ---- The file (rlibreg_file.c) */

/* Opens a file. Waits for the file's lock until the moment that rlibreg_begin_waiting has set.
 * Returns a status. */
uint32_t rlibreg_open_file(rlibreg *it, const char *path, unsigned flags);

/* Sets the moment at which a call stops waiting for a lock. */
void rlibreg_begin_waiting(rlibreg *it);

/* Closes the file, and leaves errno unchanged. */
void rlibreg_let_go(rlibreg *it);

/* Returns the status with which each call of this struct is refused, or 0. If the file was
 * shortened, its map must not be read, because that would end the process. */
uint32_t rlibreg_refuse(rlibreg *it);

/* Records that a write, a sync or a check of the file has failed. Returns RLIBREG_DEVICE. */
uint32_t rlibreg_fail(rlibreg *it);

/* ---- Plans (rlibreg_plan.c) */

/* Makes the writes and syncs of a plan in their order, until one fails. Returns 0, or -1 with
 * errno. The plan must not be used again. */
int rlibreg_carry_out(const struct disk_file *file, uint8_t *plan, size_t length);

/* Returns the bytes of the disk after a plan, or null if memory is refused. The caller unmaps
 * them. */
uint8_t *rlibreg_copy_after(const struct disk_file *file, const uint8_t *plan, size_t length);

/* ---- Changes (rlibreg_change.c) */

/* A call that plans the change `asked`, of `length` bytes, into the buffer `plan` of `room`
 * bytes. */
typedef uint32_t plan_call(rlibreg *it, const void *asked, size_t length, uint8_t *plan,
                           size_t room);

/* Plans a change, and carries it out on the file. Returns a status. */
uint32_t rlibreg_make_change(rlibreg *it, plan_call *call, const void *asked, size_t length);

/* The changes of an update, and the bytes of all of them. */
struct update {
    const rlibreg_change *changes;
    size_t count;
    const void *bytes;
    size_t length;
};

/* Plans an update. Returns a status. The caller frees the plan, which is null if the status isn't
 * 0. */
uint32_t rlibreg_make_update_plan(rlibreg *it, const struct update *asked, uint8_t **plan);

/* ---- Reading (rlibreg_read.c) and binding (rlibreg_image.c) */

/* A request: for a library by its name, or for a program that is bound at `base`. */
struct asked {
    const void *bytes;
    size_t length;
    uint64_t base;
};

/* Frees all of a block except its first `bytes` bytes. Returns the address of the block, which may
 * have changed. */
void *rlibreg_fitting(void *block, size_t bytes);

#endif

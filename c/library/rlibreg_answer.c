/* The answer of the last call, and its text. */
#define _GNU_SOURCE
#include "rlibreg_registry.h"

#include <errno.h>
#include <stdlib.h>
#include <string.h>

uint32_t rlibreg_say(rlibreg *it, uint32_t status, const char *text) {
    it->answer = (rlibreg_answer){ .status = status, .text = strlen(text) };
    it->why = errno;
    strcpy(it->text, text);
    return status;
}

uint32_t rlibreg_say_system(rlibreg *it) {
    return rlibreg_say(it, RLIBREG_SYSTEM, "");
}

uint32_t rlibreg_say_memory(rlibreg *it) {
    return rlibreg_say(it, RLIBREG_OUT_OF_MEMORY, "refused S11 OutOfMemory\n");
}

int rlibreg_text_was_cut(rlibreg *it) {
    size_t whole = it->answer.text;
    if (whole < it->text_room) {
        it->text[whole] = 0;
        return 0;
    }
    char *larger = malloc(whole + 1), *before = it->text;
    if (!larger) {
        it->text[it->text_room - 1] = 0;
        return 0;
    }
    it->text = larger;
    it->text_room = whole + 1;
    free(before); /* the last step, so that a child that another thread forks at this moment can
                   * close the struct */
    return 1;
}

const char *rlibreg_text(const rlibreg *it) {
    return it->text;
}

const rlibreg_answer *rlibreg_last_answer(const rlibreg *it) {
    return &it->answer;
}

int rlibreg_errno(const rlibreg *it) {
    uint32_t status = it->answer.status;
    return status == RLIBREG_SYSTEM || status == RLIBREG_DEVICE ? it->why : 0;
}

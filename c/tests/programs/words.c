/* A program that prints its arguments, a variable of its environment, and the auxiliary vector. */
#include "start.h"

enum { PHDR = 3, PHENT = 4, PHNUM = 5, PAGESZ = 6, BASE = 7, ENTRY = 9, RANDOM = 25, EXECFN = 31 };
enum { UID = 11, EUID, GID, EGID, SECURE = 23 };
extern void _start(void) __attribute__((visibility("hidden")));

static int same(const char *a, const char *b) {
    while (*a && *a == *b) a++, b++;
    return *a == *b;
}

/* Returns whether the users and groups in the auxiliary vector `of` are those of the process. */
static int has_ids(const uint64_t *of) {
    return of[UID] == (uint64_t)kernel(102, 0, 0, 0) && of[EUID] == (uint64_t)kernel(107, 0, 0, 0) &&
           of[GID] == (uint64_t)kernel(104, 0, 0, 0) && of[EGID] == (uint64_t)kernel(108, 0, 0, 0);
}

void begin(uint64_t *stack, uint64_t at_end) {
    char **words = (char **)(stack + 1), **variables = words + stack[0] + 1;
    uint64_t of[64] = { 0 }, headers = 0;
    for (uint64_t i = 0; i < stack[0]; i++) say(words[i]), say("\n");
    if (words[stack[0]]) say("no end of words\n");
    for (; *variables; variables++)
        if (variables[0][0] == 'S' && variables[0][1] == 'E' && variables[0][2] == 'E')
            say(*variables), say("\n");
    for (uint64_t *at = (uint64_t *)(variables + 1); *at; at += 2)
        if (*at < 64) of[*at] = at[1];
    for (uint64_t i = 0; i < of[PHNUM]; i++)
        headers += *(uint32_t *)(of[PHDR] + i * of[PHENT]) == 1; /* PT_LOAD */
    say(headers ? "headers\n" : "no headers\n");
    say(of[ENTRY] == (uint64_t)_start ? "entry\n" : "another entry\n");
    say(of[PAGESZ] == 4096 && !of[BASE] && of[RANDOM] ? "pages\n" : "no pages\n");
    say(has_ids(of) ? "ids\n" : "other ids\n");
    if (of[SECURE]) say("secure\n");
    say(same((char *)of[EXECFN], words[0]) ? "name\n" : "another name\n");
    say((uint64_t)stack % 16 ? "unaligned\n" : "aligned\n");
    say(at_end ? "something at the end\n" : "nothing at the end\n");
    leave(3);
}

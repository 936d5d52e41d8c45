/* The stack of the programs and the loader. Nothing here is for users. */
#ifndef RLIBREG_STACK_H
#define RLIBREG_STACK_H

#include <stddef.h>

/* What to do if the stack can't grow: print `message` to the standard stream `stream`, and exit
 * with `status`. */
struct refused_stack {
    int status, stream;
    const char *message;
};

/* Makes the stack of the first thread larger by `bytes` bytes. If this is refused, ends the process
 * as `refused` describes. Otherwise the kernel would kill the process later, when it needs the
 * stack. */
void rlibreg_grow_stack(size_t bytes, struct refused_stack refused);

/* Returns whether a standard stream is a file that one of the arguments names. That file may be the
 * disk, so no message is printed to it (rlibreg_entry.c). */
int rlibreg_names_stream(int stream, char **words);

#endif

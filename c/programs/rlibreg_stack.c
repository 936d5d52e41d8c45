/* Makes the stack of a process large enough at its start. If a stack can't grow, because address
 * space or memory is lacking or because of the user's limit, SIGSEGV ends the process in the middle
 * of its work. For this reason the stack grows before any work begins. */
#define _GNU_SOURCE
#include "rlibreg_stack.h"

#include <alloca.h>
#include <errno.h>
#include <signal.h>
#include <string.h>
#include <unistd.h>

/* Number of bytes of the stack for the signal's handler, which has no other stack. */
enum { OTHER_STACK = 1 << 15 };

static struct refused_stack then;

static void cannot_grow(int number) {
    (void)number;
    signal(SIGPIPE, SIG_IGN); /* a pipe without a reader changes no status */
    if (write(then.stream, then.message, strlen(then.message)) < 0) errno = 0; /* if this fails,
                                                                                * there is no
                                                                                * other way to
                                                                                * report it */
    _exit(then.status);
}

/* Writes a byte that lies `bytes` bytes down the stack, so the system extends the stack to this
 * byte. */
__attribute__((noinline)) static void touch(size_t bytes) {
    *(volatile char *)alloca(bytes) = 0;
}

void rlibreg_grow_stack(size_t bytes, struct refused_stack refused) {
    static char room[OTHER_STACK];
    stack_t other = { .ss_sp = room, .ss_size = sizeof room }, usual;
    struct sigaction ours = { .sa_handler = cannot_grow, .sa_flags = SA_ONSTACK }, before;
    then = refused;
    sigaltstack(&other, &usual);
    sigaction(SIGSEGV, &ours, &before);
    touch(bytes);
    sigaction(SIGSEGV, &before, NULL);
    sigaltstack(&usual, NULL);
}

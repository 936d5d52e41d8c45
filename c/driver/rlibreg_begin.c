/* The start of a program that rlibreg-gcc links. It replaces musl's Scrt1.o.
 *
 * A library's constructor may use the program's C library. So musl is set up before the first
 * constructor, and only once, because a second time would lose what constructors have set, started
 * or allocated. A function in the program's DT_PREINIT_ARRAY sets musl up. rlibreg-run calls this
 * array before the libraries' initializers, and then enters the program at `_start`.
 *
 * If no loader has called the initializers, the program calls them itself after `_start`. This is
 * so in a file of `rlibreg-tool executable`, which has no loader, and under musl's own loader,
 * which leaves them to its own C library. */
#include "rlibreg_begin.h"

extern int main(int, char **, char **);
extern _Noreturn void exit(int);
extern char **environ;
extern void _init(void);

#pragma GCC visibility push(hidden)
extern void __init_libc(char **environment, char *name); /* sets musl up; part of its libc.a */
typedef void initializer(int, char **, char **);
extern initializer *const __init_array_start[], *const __init_array_end[];
#pragma GCC visibility pop

static int is_set_up;        /* whether musl has been set up */
static void (*at_end)(void); /* function that finalizes the libraries, or null */

/* By this note the program states that it calls its libraries' initializers and finalizers if no
 * loader does. `rlibreg-tool executable` reads the note. The note's name has eight bytes, it has no
 * descriptor, and its type is 1. */
__asm__(".pushsection .note.rlibreg, \"a\", @note\n"
        "  .balign 4\n"
        "  .long 8, 0, 1\n"
        "  .asciz \"rlibreg\"\n"
        ".popsection\n");

static void set_up(int count, char **words, char **environment) {
    (void)count;
    /* The exchange writes the page immediately. A read before the write would cause a second page
     * fault. */
    if (!__atomic_exchange_n(&is_set_up, 1, __ATOMIC_RELAXED)) __init_libc(environment, words[0]);
}

/* This file is linked first, so `set_up` is the first function of the array. */
__attribute__((section(".preinit_array"), used)) static initializer *const first = set_up;

/* Starts the program. `stack` is the stack as the program finds it, and `end` is the value that the
 * program finds in rdx. If rlibreg-run started the program, `end` is a function that finalizes the
 * libraries, or null. Under musl's loader, `end` has no meaning. */
__attribute__((used)) static _Noreturn void begin(long *stack, void (*end)(void)) {
    int count = (int)*stack;
    char **words = (char **)(stack + 1);
    if (is_set_up) {
        at_end = end;
    } else {
        set_up(count, words, words + count + 1);
        rlibreg_initialize(count, words, words + count + 1);
        at_end = rlibreg_finalize;
    }
    _init();
    for (initializer *const *it = __init_array_start; it != __init_array_end; it++)
        (*it)(count, words, environ);
    exit(main(count, words, environ));
}

__asm__(".globl _start\n"
        ".type _start, @function\n"
        "_start:\n"
        "  xor %ebp, %ebp\n"
        "  mov %rsp, %rdi\n"
        "  mov %rdx, %rsi\n"
        "  and $-16, %rsp\n"
        "  call begin\n");

/* Finalizes the libraries. Because of its priority, this is called after all other destructors of
 * the program. If a library's initializer ends the process, no library is finalized. */
__attribute__((destructor(101))) static void end(void) {
    if (at_end) at_end();
}

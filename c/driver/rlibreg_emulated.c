/* Thread-local data as gcc and clang emulate it: code calls `__emutls_get_address` for each access. A
 * program that rlibreg-gcc links has one such function, for itself and for its libraries.
 *
 * Each object has a control block, which the compiler makes. The object gets a number when it is first
 * used. Each thread has a table of its copies of the objects, by these numbers. A thread's copy is made
 * when the thread first requests it, in memory of mmap(2), because the program's malloc may have
 * thread-local data itself. No lock is taken, so no lock stays locked in a child if another thread makes
 * a copy during fork(2). Signals are blocked while a copy is made, because their handlers may use
 * thread-local data too. */
#define _GNU_SOURCE
#include <limits.h>
#include <pthread.h>
#include <signal.h>
#include <stddef.h>
#include <stdint.h>
#include <stdlib.h>
#include <string.h>
#include <sys/mman.h>
#include <unistd.h>

enum { PIECE = 16384 };

/* The control block of an object, as the compilers make it. `number` is 0 until the object is used
 * for the first time. */
struct control {
    size_t size, alignment, number;
    const void *first; /* the bytes of a new copy, or null for zeros */
};

/* Mapped memory. Each piece begins with this structure. */
struct piece {
    struct piece *next;
    size_t length;
};

struct thread {
    struct piece *pieces;
    uintptr_t unused, end; /* addresses of the unused bytes of the newest piece */
    size_t rounds;         /* number of rounds of destructors that this thread has been through */
    size_t room;           /* the number of pointers in `copies` */
    void **copies;         /* the copy of object number n is copies[n - 1], or null */
};

static size_t last_number;
static pthread_key_t key_and_one; /* 0 until there is a key */

void *__emutls_get_address(struct control *);
void __emutls_register_common(struct control *, size_t, size_t, const void *);

static void fail(void) {
    static const char text[] = "there is no memory for thread-local data\n";
    if (write(2, text, sizeof text - 1) < 0) abort();
    abort();
}

/* Maps a piece that has at least `length` bytes after this structure. */
static struct piece *map_piece(size_t length) {
    size_t whole = (length + sizeof(struct piece) + PIECE - 1) & -(size_t)PIECE;
    if (whole < length) fail();
    struct piece *it = mmap(NULL, whole, PROT_READ | PROT_WRITE, MAP_PRIVATE | MAP_ANONYMOUS, -1, 0);
    if (it == MAP_FAILED) fail();
    it->length = whole;
    return it;
}

/* Allocates zeroed memory that lasts as long as the thread. */
static void *allocate(struct thread *thread, size_t size, size_t alignment) {
    uintptr_t at = (thread->unused + alignment - 1) & -alignment;
    if (at < thread->unused || at > thread->end || size > thread->end - at) {
        if (size + alignment < size) fail();
        struct piece *piece = map_piece(size + alignment);
        piece->next = thread->pieces;
        thread->pieces = piece;
        at = ((uintptr_t)(piece + 1) + alignment - 1) & -alignment;
        thread->end = (uintptr_t)piece + piece->length;
    }
    thread->unused = at + size;
    return (void *)at;
}

/* Unmaps a thread's copies, but only in the last round of destructors, because other destructors
 * may use the copies. */
static void end_thread(void *given) {
    struct thread *thread = given;
    if (++thread->rounds < PTHREAD_DESTRUCTOR_ITERATIONS) {
        pthread_setspecific(key_and_one - 1, thread);
        return;
    }
    for (struct piece *it = thread->pieces, *next; it; it = next) {
        next = it->next;
        munmap(it, it->length);
    }
}

/* Makes the key, unless there already is one. The key is made before `main`, because the program
 * may use up all keys later. */
__attribute__((constructor(101))) static void make_key(void) {
    pthread_key_t none = 0, made;
    if (__atomic_load_n(&key_and_one, __ATOMIC_ACQUIRE)) return;
    if (pthread_key_create(&made, end_thread)) fail();
    if (!__atomic_compare_exchange_n(&key_and_one, &none, made + 1, 0, __ATOMIC_ACQ_REL, __ATOMIC_ACQUIRE))
        pthread_key_delete(made);
}

/* Returns an object's number. Gives the object a number if it has none. */
static size_t number_of(struct control *it) {
    size_t number = __atomic_load_n(&it->number, __ATOMIC_ACQUIRE), none = 0;
    if (number) return number;
    number = __atomic_add_fetch(&last_number, 1, __ATOMIC_RELAXED);
    int is_first =
        __atomic_compare_exchange_n(&it->number, &none, number, 0, __ATOMIC_ACQ_REL, __ATOMIC_ACQUIRE);
    return is_first ? number : none;
}

/* Returns the calling thread, with room for at least `room` copies. */
static struct thread *thread_with(size_t room) {
    struct thread *thread = pthread_getspecific(key_and_one - 1);
    if (!thread) {
        struct thread first = { 0 };
        thread = allocate(&first, sizeof *thread, _Alignof(struct thread));
        *thread = first;
        pthread_setspecific(key_and_one - 1, thread);
    }
    if (thread->room < room) {
        void **copies = allocate(thread, 2 * room * sizeof *copies, _Alignof(void *));
        if (thread->room) memcpy(copies, thread->copies, thread->room * sizeof *copies);
        thread->copies = copies;
        thread->room = 2 * room;
    }
    return thread;
}

/* Returns the calling thread's copy of an object. Makes the copy, unless a signal's handler has
 * made it meanwhile. */
static void *make_copy(struct control *it) {
    sigset_t all, before;
    sigfillset(&all);
    pthread_sigmask(SIG_BLOCK, &all, &before);
    make_key();
    size_t number = number_of(it);
    struct thread *thread = thread_with(number);
    void *copy = thread->copies[number - 1];
    if (!copy) {
        copy = allocate(thread, it->size, it->alignment);
        if (it->first) memcpy(copy, it->first, it->size);
        thread->copies[number - 1] = copy;
    }
    pthread_sigmask(SIG_SETMASK, &before, NULL);
    return copy;
}

/* Returns the calling thread's copy of an object. */
void *__emutls_get_address(struct control *it) {
    size_t number = __atomic_load_n(&it->number, __ATOMIC_ACQUIRE);
    if (number) {
        const struct thread *thread = pthread_getspecific(key_and_one - 1);
        if (thread && number <= thread->room && thread->copies[number - 1])
            return thread->copies[number - 1];
    }
    return make_copy(it);
}

/* Constructors call this for data that `-fcommon` lets several objects define, each with its own
 * size. The largest size is used. */
void __emutls_register_common(struct control *it, size_t size, size_t alignment, const void *first) {
    if (it->size < size) {
        it->size = size;
        it->first = NULL;
    }
    if (it->alignment < alignment) it->alignment = alignment;
    if (first && size == it->size) it->first = first;
}

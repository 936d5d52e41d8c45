/* Attacks on emulated thread-local data, each by a word. The control blocks are as compilers make them. */
#define _GNU_SOURCE
#include <errno.h>
#include <limits.h>
#include <pthread.h>
#include <sched.h>
#include <semaphore.h>
#include <signal.h>
#include <stdint.h>
#include <stdio.h>
#include <stdlib.h>
#include <string.h>
#include <sys/time.h>
#include <sys/wait.h>
#include <unistd.h>

struct control {
    size_t size, alignment, number;
    const void *first;
};
void *__emutls_get_address(void *);
void __emutls_register_common(void *, size_t, size_t, void *);

enum { OBJECTS = 4000, RACES = 500 };
static struct control objects[OBJECTS];
static long wrong;
static volatile int is_over;

static void make_objects(void) {
    for (size_t at = 0; at < OBJECTS; at++)
        objects[at] = (struct control){ 1 + at * 7 % 300, (size_t)1 << at % 13, 0, NULL };
}

static size_t pages(void) {
    size_t all = 0;
    FILE *file = fopen("/proc/self/statm", "r");
    if (!file || fscanf(file, "%zu", &all) != 1) abort();
    fclose(file);
    return all;
}

/* Copies are zero, aligned and apart from each other, and stay at their addresses while the table
 * grows. */
static void *many(void *given) {
    static long first = 77;
    struct control *large = calloc(1, sizeof *large);
    unsigned char **copies = calloc(OBJECTS, sizeof *copies);
    *large = (struct control){ (size_t)64 << 20, 1 << 21, 0, NULL };
    unsigned char *all = __emutls_get_address(large);
    wrong += (uintptr_t)all % (1 << 21) != 0 || all[0] || all[(64 << 20) - 1]++;
    for (size_t at = 0; at < OBJECTS; at++) {
        copies[at] = __emutls_get_address(&objects[at]);
        wrong += (uintptr_t)copies[at] % objects[at].alignment != 0;
        for (size_t byte = 0; byte < objects[at].size; byte++) wrong += copies[at][byte]++ != 0;
    }
    for (size_t at = 0; at < OBJECTS; at++) {
        wrong += __emutls_get_address(&objects[at]) != copies[at];
        for (size_t byte = 0; byte < objects[at].size; byte++) wrong += copies[at][byte] != 1;
    }
    struct control common = { 4, 4, 0, &first };
    __emutls_register_common(&common, 8, 8, &first);
    __emutls_register_common(&common, 2, 2, NULL);
    wrong += *(long *)__emutls_get_address(&common) != first;
    free(copies);
    return given;
}

static void try_many(void) {
    pthread_t thread;
    many(NULL);
    if (pthread_create(&thread, NULL, many, NULL)) abort();
    pthread_join(thread, NULL);
}

/* Many threads exist at the same time, and each has its own copy. */
static pthread_mutex_t lock = PTHREAD_MUTEX_INITIALIZER;
static pthread_cond_t changed = PTHREAD_COND_INITIALIZER;
static sem_t begun;
static void *stay(void *given) {
    long *own = __emutls_get_address(&objects[8]);
    wrong += *own != 0;
    *own = (long)given;
    sem_post(&begun);
    pthread_mutex_lock(&lock);
    while (!is_over) pthread_cond_wait(&changed, &lock);
    pthread_mutex_unlock(&lock);
    if (*(long *)__emutls_get_address(&objects[8]) != (long)given) __atomic_add_fetch(&wrong, 1, __ATOMIC_RELAXED);
    return NULL;
}

static void try_threads(void) {
    static pthread_t threads[10000];
    long made = 0;
    pthread_attr_t small;
    pthread_attr_init(&small);
    pthread_attr_setstacksize(&small, 16384);
    while (made < 10000 && !pthread_create(&threads[made], &small, stay, (void *)(made + 1))) made++;
    for (long at = 0; at < made; at++) sem_wait(&begun);
    pthread_mutex_lock(&lock);
    is_over = 1;
    pthread_cond_broadcast(&changed);
    pthread_mutex_unlock(&lock);
    for (long at = 0; at < made; at++) pthread_join(threads[at], NULL);
    if (made < 10000) printf("%ld threads, not 10000\n", made);
}

/* Threads that have ended keep no memory. */
static void *touch(void *given) {
    for (size_t at = 0; at < 100; at++) *(char *)__emutls_get_address(&objects[at]) = 1;
    return given;
}
static void try_memory(void) {
    pthread_t thread;
    size_t before = 0;
    for (int round = 0; round < 1000; round++) {
        if (pthread_create(&thread, NULL, touch, NULL)) abort();
        pthread_join(thread, NULL);
        if (round == 100) before = pages();
    }
    wrong += pages() > before + 100;
}

/* A child of fork(2) makes copies, even if other threads were making copies during the fork. */
static void *make_threads(void *given) {
    pthread_t thread;
    while (!is_over)
        if (!pthread_create(&thread, NULL, touch, NULL)) pthread_join(thread, NULL);
    return given;
}
static void *use_objects(void *given) {
    static struct control fresh[1 << 20];
    for (size_t at = 0; !is_over && at < sizeof fresh / sizeof *fresh; at++) {
        fresh[at].size = fresh[at].alignment = 8;
        *(char *)__emutls_get_address(&fresh[at]) = 1;
    }
    return given;
}
static void try_fork(void) {
    pthread_t threads[2];
    if (pthread_create(&threads[0], NULL, make_threads, NULL)) abort();
    if (pthread_create(&threads[1], NULL, use_objects, NULL)) abort();
    for (int round = 0; round < 300 && !wrong; round++) {
        int status;
        pid_t child = fork();
        if (child < 0) abort();
        if (!child) {
            alarm(20);
            struct control fresh = { 8, 8, 0, NULL };
            *(long *)__emutls_get_address(&fresh) = 5;
            touch(NULL);
            _exit(*(long *)__emutls_get_address(&fresh) != 5);
        }
        wrong += waitpid(child, &status, 0) != child || status != 0;
    }
    is_over = 1;
    for (int at = 0; at < 2; at++) pthread_join(threads[at], NULL);
}

/* A handler of signals makes copies while its thread makes copies too. */
static void *seen[OBJECTS];
static volatile size_t current = OBJECTS, signals;
static void handle(int signal) {
    (void)signal;
    signals++;
    for (size_t at = current; at < current + 3 && at < OBJECTS; at++) {
        void *copy = __emutls_get_address(&objects[at]);
        if (!seen[at]) seen[at] = copy;
        wrong += seen[at] != copy;
    }
}
static void try_signals(void) {
    struct sigaction action = { .sa_handler = handle };
    struct itimerval often = { { 0, 50 }, { 0, 50 } }, never = { { 0, 0 }, { 0, 0 } };
    sigaction(SIGALRM, &action, NULL);
    setitimer(ITIMER_REAL, &often, NULL);
    while (signals < 5000) {
        make_objects();
        memset(seen, 0, sizeof seen);
        for (current = 0; current < OBJECTS; current++) {
            size_t at = current;
            void *copy = __emutls_get_address(&objects[at]);
            wrong += seen[at] && seen[at] != copy;
            seen[at] = copy;
        }
        for (size_t at = 0; at < OBJECTS; at++) wrong += seen[at] != __emutls_get_address(&objects[at]);
        current = OBJECTS;
    }
    setitimer(ITIMER_REAL, &never, NULL);
}

/* Two threads use each object for the first time at once. */
static size_t arrived;
static void *race(void *given) {
    static void *copies[2][RACES];
    void **own = copies[given != NULL];
    long different = 0;
    for (size_t at = 0; at < RACES; at++) {
        __atomic_add_fetch(&arrived, 1, __ATOMIC_ACQ_REL);
        for (int tries = 0; __atomic_load_n(&arrived, __ATOMIC_ACQUIRE) < 2 * (at + 1); tries++)
            if (tries > 20000) sched_yield();
        own[at] = __emutls_get_address(&objects[at]);
    }
    for (size_t at = 0; at < RACES; at++)
        different += own[at] != __emutls_get_address(&objects[at]);
    __atomic_add_fetch(&wrong, different, __ATOMIC_RELAXED);
    return NULL;
}
static void try_races(void) {
    pthread_t thread;
    for (int round = 0; round < 4; round++) {
        arrived = 0;
        make_objects();
        if (pthread_create(&thread, NULL, race, objects)) abort();
        race(NULL);
        pthread_join(thread, NULL);
    }
}

/* The program uses up all keys before its first access to thread-local data. */
static void try_keys(void) {
    pthread_key_t key;
    while (!pthread_key_create(&key, NULL)) continue;
    try_memory();
}

static void try_errno(void) {
    sigset_t before = { 0 }, after = { 0 };
    errno = 77;
    pthread_sigmask(SIG_SETMASK, NULL, &before);
    touch(NULL);
    pthread_sigmask(SIG_SETMASK, NULL, &after);
    wrong += errno != 77 || memcmp(&before, &after, sizeof before) != 0;
}

int main(int count, char **words) {
    static const struct {
        const char *word;
        void (*call)(void);
    } all[] = { { "many", try_many },       { "threads", try_threads }, { "memory", try_memory },
                { "fork", try_fork },       { "signals", try_signals }, { "races", try_races },
                { "keys", try_keys },       { "errno", try_errno } };
    make_objects();
    for (size_t at = 0; count == 2 && at < sizeof all / sizeof *all; at++)
        if (!strcmp(words[1], all[at].word)) all[at].call();
    printf("wrong: %ld\n", wrong);
    return wrong != 0;
}

/* Prints two times in nanoseconds: the time of an access to thread-local data, and the time of a thread's
 * start, its first access and its end together. */
#define _GNU_SOURCE
#include <pthread.h>
#include <stdio.h>
#include <stdlib.h>
#include <time.h>

enum { ACCESSES = 50000000, THREADS = 2000 };
__thread int counted;

__attribute__((noinline)) static void count(void) {
    counted++;
    __asm__ volatile("");
}

static void *use(void *given) {
    if (given) count();
    return NULL;
}

static double now(void) {
    struct timespec it;
    clock_gettime(CLOCK_MONOTONIC, &it);
    return (double)it.tv_sec * 1e9 + (double)it.tv_nsec;
}

static double threads(void *given) {
    double from = now();
    for (int at = 0; at < THREADS; at++) {
        pthread_t thread;
        if (pthread_create(&thread, NULL, use, given)) abort();
        pthread_join(thread, NULL);
    }
    return (now() - from) / THREADS;
}

int main(void) {
    double from = now();
    for (int at = 0; at < ACCESSES; at++) count();
    printf("an access: %.1f; ", (now() - from) / ACCESSES);
    printf("a thread that has none: %.0f, that has one: %.0f\n", threads(NULL), threads(&counted));
    return 0;
}

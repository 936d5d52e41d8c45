/* Threads that use thread-local data of a program and of its libraries, also as they end. */
#include <pthread.h>
#include <stdio.h>
#include <stdlib.h>
#include <string.h>

#include "driver_threads.h"

__thread int of_program = 1000;
static __thread char block[3 << 20];
static pthread_key_t key;

static void *check(void *given) {
    long wrong = 0;
    pthread_setspecific(key, given);
    for (int at = 1; at <= 3; at++) {
        of_program++;
        wrong += count_in_library() != at * 100 + 1000 + at;
        wrong += add_to_shared(7) != 5 + at * 7;
    }
    wrong += strcmp(shared.text, "five") != 0 || *shared.other != 9 || strcmp(name, "library one") != 0;
    wrong += misaligned_in_library() != 0;
    for (size_t at = 0; at < sizeof block; at += 4096) wrong += block[at]++ != 0;
    return (void *)wrong;
}

/* The destructor of this key runs twice, and finds the data that the thread left. */
static void end(void *given) {
    if (of_program == 1003) pthread_setspecific(key, given);
    printf("thread %ld ends with %d, %d, %d\n", (long)given, of_program++, add_to_shared(0), block[4096]);
}

int main(void) {
    long wrong = 0;
    void *of_thread;
    pthread_t thread;
    pthread_key_create(&key, end);
    for (long number = 1; number <= 2; number++) {
        if (pthread_create(&thread, NULL, check, (void *)number)) return 1;
        pthread_join(thread, &of_thread);
        wrong += (long)of_thread;
    }
    wrong += (long)check(NULL);
    printf("wrong: %ld\n", wrong);
    return wrong != 0;
}

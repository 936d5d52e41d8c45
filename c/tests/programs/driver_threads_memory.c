/* A program whose malloc has thread-local data. */
#include <pthread.h>
#include <stddef.h>
#include <stdio.h>
#include <string.h>

static __thread size_t taken;
static __thread char memory[1 << 20];

void *malloc(size_t size) {
    size_t at = (taken + 15) & -(size_t)16;
    if (size > sizeof memory || at > sizeof memory - size) return NULL;
    taken = at + size;
    return memory + at;
}
void free(void *it) { (void)it; }
void *calloc(size_t count, size_t size) {
    void *it = malloc(count * size);
    return it ? memset(it, 0, count * size) : NULL;
}
void *realloc(void *old, size_t size) {
    void *it = malloc(size);
    return it && old ? memcpy(it, old, size) : it;
}

static void *take(void *given) {
    char *it = malloc(100);
    snprintf(it, 100, "%zu bytes of thread %ld", taken, (long)given);
    puts(it);
    return NULL;
}

int main(void) {
    pthread_t thread;
    take((void *)0);
    if (pthread_create(&thread, NULL, take, (void *)1)) return 1;
    pthread_join(thread, NULL);
    take((void *)2);
    return 0;
}

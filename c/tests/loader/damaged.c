/* damaged DISK PROGRAM binds a program, and damages the bytes of its image in many ways. The loader
 * has to find the functions to call and the fixed pages, or to refuse the program. It must read
 * nothing outside the image; the sanitizers would detect such a read. */
#include "rlibreg_run.h"

#include <setjmp.h>
#include <stdio.h>
#include <stdlib.h>
#include <string.h>

enum { ROUNDS = 20000, ROOM = 1 << 16 };

static jmp_buf back;

/* Replaces the loader's function: a refusal ends the loader, but not this test. */
void give_up(int status, const char *what, const char *why) {
    if (status != REFUSED || !strlen(what) || !strlen(why)) abort();
    longjmp(back, 1);
}

void fail(const char *what) {
    perror(what);
    abort();
}

/* Turns off the search for leaks: the loader doesn't free all its memory before it ends. */
const char *__asan_default_options(void);
const char *__asan_default_options(void) {
    return "detect_leaks=0";
}

static uint32_t next_random(void) {
    static uint32_t random = 1;
    random = random * 1103515245 + 12345;
    return random >> 8;
}

/* Changes a byte of a dynamic section or, at times, a byte anywhere in the image. */
static void damage(const rlibreg_image *image, size_t length) {
    const rlibreg_object *object = &image->objects[next_random() % image->object_count];
    struct dynamic dynamic = dynamic_of(image, object);
    size_t room = dynamic.count * sizeof(Elf64_Dyn), at = next_random() % length;
    if (room && next_random() % 4)
        at = (size_t)(dynamic.bytes - image->bytes) + next_random() % room;
    image->bytes[at] ^= (uint8_t)(1u << next_random() % 8);
}

/* Returns whether the loader would start the program. */
static int is_started(struct program *it) {
    if (setjmp(back)) return 0;
    it->initializers.count = it->finalizers.count = 0;
    find_calls(it);
    for (size_t i = 0; i < it->image.object_count; i++) {
        struct pages fixed = fixed_pages(&it->image, &it->image.objects[i]);
        if (fixed.to < fixed.from || (fixed.from | fixed.to) % PAGE) abort();
    }
    return 1;
}

int main(int argc, char **argv) {
    static uint8_t bytes[ROOM];
    struct program it = { .path = argv[argc - 1], .bytes = bytes, .base = (uint64_t)1 << 40 };
    FILE *file = fopen(it.path, "rb");
    rlibreg *registry = rlibreg_create();
    if (argc != 3 || !file || !registry) return 2;
    it.length = fread(bytes, 1, ROOM, file);
    fclose(file);
    if (rlibreg_open(registry, argv[1], 0)) return 2;
    if (rlibreg_bind_program(registry, bytes, it.length, it.base, &it.image)) return 2;
    size_t length = it.image.objects->name; /* bytes of the segments, which the names follow */
    uint8_t *kept = malloc(length);
    if (!kept || !is_started(&it)) return 1;
    memcpy(kept, it.image.bytes, length);
    size_t started = 0;
    for (size_t round = 0; round < ROUNDS; round++) {
        for (size_t i = 0; i < 1 + round % 3; i++) damage(&it.image, length);
        started += (size_t)is_started(&it);
        memcpy(it.image.bytes, kept, length);
    }
    if (started < ROUNDS / 10 || started > ROUNDS - ROUNDS / 10) return 1;
    printf("damaged: of %d images %zu would be started, and the others are refused\n", ROUNDS,
           started);
    return 0;
}

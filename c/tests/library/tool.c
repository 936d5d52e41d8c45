/* tool COMMAND DISK [WORD].. makes the calls over a file that correspond to a command of the
 * program `rlibreg`, and prints the same as the program. It exits with the program's status, or
 * with 9 for a status that only the library has. With `wait` before COMMAND it waits for a locked
 * disk. */
#include "rlibreg.h"

#include <errno.h>
#include <stdio.h>
#include <stdlib.h>
#include <string.h>

static void *read_file(const char *path, size_t *length) {
    FILE *file = fopen(path, "rb");
    if (!file || fseek(file, 0, SEEK_END)) exit(3);
    *length = (size_t)ftell(file);
    rewind(file);
    char *bytes = malloc(*length + 1);
    if (!bytes || fread(bytes, 1, *length, file) != *length) exit(3);
    fclose(file);
    return bytes;
}

/* Prints a segment as `rlibreg bind` prints it. */
static void print_segment(const rlibreg_image *image, const rlibreg_segment *it) {
    if (!it->length) return;
    printf("segment 0x%016llx %llu %c%c%c\n", (unsigned long long)it->address,
           (unsigned long long)it->length, it->permissions & RLIBREG_READ ? 'r' : '-',
           it->permissions & RLIBREG_WRITE ? 'w' : '-',
           it->permissions & RLIBREG_EXECUTE ? 'x' : '-');
    for (size_t at = 0; at < it->length; at++)
        printf(at % 16 == 15 || at + 1 == it->length ? "%02x\n" : "%02x",
               image->bytes[it->offset + at]);
}

static void print_image(const rlibreg_image *image) {
    for (size_t i = 0; i < image->object_count; i++) {
        const rlibreg_object *it = &image->objects[i];
        printf("object 0x%016llx %s\n", (unsigned long long)it->base,
               (char *)image->bytes + it->name);
        for (size_t number = 0; number < it->segments; number++)
            print_segment(image, &image->segments[it->first_segment + number]);
    }
    puts("end");
}

static int exit_status(uint32_t status) {
    switch (status) {
    case RLIBREG_DONE:
        return 0;
    case RLIBREG_DEVICE:
    case RLIBREG_REOPEN:
        return 3;
    case RLIBREG_OUT_OF_MEMORY:
        return 4;
    }
    return status > 100 ? 1 : 9;
}

static uint32_t with_file(rlibreg *it, const char *what, char **words) {
    size_t length;
    uint32_t status;
    void *bytes = read_file(words[0], &length);
    if (!strcmp(what, "install")) {
        status = rlibreg_install(it, bytes, length);
    } else if (!strcmp(what, "replace")) {
        status = rlibreg_replace(it, bytes, length);
    } else {
        rlibreg_image image;
        status = rlibreg_bind_program(it, bytes, length, strtoull(words[1], NULL, 16), &image);
        if (!status) print_image(&image);
        rlibreg_image_free(&image);
    }
    free(bytes);
    return status;
}

static uint32_t do_command(rlibreg *it, const char *what, char **words) {
    if (!strcmp(what, "upgrade")) return rlibreg_upgrade(it);
    if (!strcmp(what, "remove")) return rlibreg_remove(it, words[0]);
    if (!strcmp(what, "preload")) {
        size_t count = 0;
        while (words[count]) count++;
        return rlibreg_preload(it, (const char *const *)words, count);
    }
    if (!strcmp(what, "list") || !strcmp(what, "generation")) {
        rlibreg_listing listing;
        uint32_t status = rlibreg_get_listing(it, &listing);
        if (!status && what[0] == 'g')
            printf("generation %llu\n", (unsigned long long)listing.generation);
        rlibreg_listing_free(&listing);
        return status;
    }
    return with_file(it, what, words);
}

int main(int argc, char **argv) {
    unsigned flags = argc > 1 && !strcmp(argv[1], "wait") ? RLIBREG_WAIT : 0;
    int holds = argc > 1 && !strcmp(argv[1], "hold");
    if (flags || holds) argv++;
    const char *what = argv[1], *disk = argv[2];
    rlibreg *it = rlibreg_create();
    uint32_t status;
    if (!it) return 4;
    if (!strcmp(what, "format")) {
        status = rlibreg_format(it, disk, (uint32_t)atol(argv[3]), flags);
    } else {
        int reads = !strcmp(what, "list") || !strcmp(what, "bind") || !strcmp(what, "generation");
        status = rlibreg_open(it, disk, flags | (reads ? 0 : RLIBREG_READ_WRITE));
        if (!status) status = do_command(it, what, argv + 3);
    }
    fputs(rlibreg_text(it), stdout);
    if (status == RLIBREG_SYSTEM)
        fprintf(stderr, "tool: %s\n", strerror(errno));
    else if (status < 100 && status)
        fprintf(stderr, "tool: %s\n", rlibreg_status_name(status));
    if (rlibreg_last_answer(it)->file_refusal)
        fprintf(stderr, "%s\n", rlibreg_file_refusal_name(rlibreg_last_answer(it)->file_refusal));
    fflush(stdout);
    if (holds)
        while (getchar() != EOF) {
        }
    rlibreg_close(it);
    return exit_status(status);
}

/* mapped FILE OTHER maps FILE, and writes each of its bytes again, so that its pages are dirty.
 * Then it prints a line. When its input ends, it writes the bytes of OTHER into FILE through the
 * map. */
#define _GNU_SOURCE
#include <fcntl.h>
#include <stdio.h>
#include <string.h>
#include <sys/mman.h>
#include <sys/stat.h>
#include <unistd.h>

static void *map(const char *path, int how, size_t *length) {
    struct stat found;
    int fd = open(path, how & PROT_WRITE ? O_RDWR : O_RDONLY);
    if (fd < 0 || fstat(fd, &found)) return MAP_FAILED;
    *length = (size_t)found.st_size;
    void *at = mmap(NULL, *length, how, MAP_SHARED, fd, 0);
    close(fd);
    return at;
}

int main(int argc, char **argv) {
    size_t length, other;
    if (argc != 3) return 2;
    volatile char *to = map(argv[1], PROT_READ | PROT_WRITE, &length);
    const char *from = map(argv[2], PROT_READ, &other);
    if (to == MAP_FAILED || from == MAP_FAILED || length != other) return 1;
    for (size_t i = 0; i < length; i++) to[i] = to[i];
    puts("mapped");
    fflush(stdout);
    while (getchar() != EOF) continue;
    memcpy((char *)to, from, length);
    return 0;
}

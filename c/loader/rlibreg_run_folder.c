/* The folder in which images are kept, and the names of the images. The type and the owner of a
 * file are read through its descriptor, so that nobody can replace the file in between. */
#define _GNU_SOURCE
#include "rlibreg_run_kernel.h"
#include "rlibreg_run_kept.h"

#include <errno.h>
#include <fcntl.h>
#include <limits.h>

/* ---- Owners */

/* Returns whether a file belongs to root or to the user. In a user namespace, an owner without a
 * number in that namespace is shown as another user. For this reason the kernel is asked too: it
 * permits only the owner of a file to read the file without a change of its access time. */
static int is_owner(const struct keeping *it, int fd, const struct stat *file) {
    return !file->st_uid || (file->st_uid == it->user && !kernel_set_flags(fd, O_NOATIME));
}

static int is_ours_alone(const struct keeping *it, int fd, const struct stat *file) {
    return !(file->st_mode & (S_IWGRP | S_IWOTH)) && is_owner(it, fd, file);
}

/* Returns the length of a path without the slashes and dots at its end, which would make open
 * follow a link. */
static size_t length_of_name(const char *path) {
    size_t length = strlen(path);
    for (;;) {
        size_t dot = length > 1 && path[length - 1] == '.' && path[length - 2] == '/';
        if (length - dot > 1 && path[length - dot - 1] == '/')
            length -= dot + 1;
        else
            return length;
    }
}

int open_folder(struct keeping *it) {
    struct stat found;
    char name[PATH_MAX];
    size_t length = length_of_name(it->path);
    it->folder = -1;
    if (length >= sizeof name) return -ENAMETOOLONG;
    memcpy(name, it->path, length);
    name[length] = 0;
    it->folder = kernel_open(AT_FDCWD, name, O_RDONLY | O_DIRECTORY | O_NOFOLLOW | O_CLOEXEC);
    if (it->folder < 0) return it->folder;
    if (!kernel_fstat(it->folder, &found) && is_ours_alone(it, it->folder, &found)) {
        it->is_for_all = (found.st_mode & S_IROTH) != 0;
        return 0;
    }
    close_folder(it);
    return -EPERM;
}

void close_folder(struct keeping *it) {
    if (it->folder >= 0) kernel_close(it->folder);
    it->folder = -1;
}

int open_kept(const struct keeping *it, const char *name, uint64_t *length) {
    struct stat found;
    int fd = kernel_open(it->folder, name,
                         O_RDONLY | O_NOFOLLOW | O_CLOEXEC | O_NOCTTY | O_NONBLOCK);
    if (fd < 0) return fd;
    if (!kernel_fstat(fd, &found) && S_ISREG(found.st_mode) && is_ours_alone(it, fd, &found) &&
        found.st_nlink <= 1) {
        *length = (uint64_t)found.st_size;
        return fd;
    }
    kernel_close(fd);
    return -EPERM;
}

/* ---- Names */

/* FNV-1a is good enough for a name. */
uint64_t mixed(uint64_t number, const void *bytes, size_t length) {
    for (size_t i = 0; i < length; i++)
        number = (number ^ ((const uint8_t *)bytes)[i]) * 0x100000001b3;
    return number;
}

uint64_t number_of_options(const struct key *key) {
    const uint64_t told[] = { key->choice, key->base, key->may_be_both };
    return mixed(0xcbf29ce484222325, told, sizeof told);
}

void give_name(struct keeping *it, const struct program *program) {
    const struct state *disk = &it->key.disk;
    const uint64_t told[] = { disk->kind, disk->device, disk->number, program->found.st_dev,
                              program->found.st_ino };
    uint64_t number = mixed(number_of_options(&it->key), told, sizeof told);
    number = mixed(number, it->key.build, BUILD);
    for (int i = NAME_ROOM - 2; i >= 0; i--, number /= 16)
        it->name[i] = "0123456789abcdef"[number % 16];
    it->name[NAME_ROOM - 1] = 0;
}

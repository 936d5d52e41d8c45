/* Makes and names the files of kept images, and removes old ones. */
#define _GNU_SOURCE
#include "rlibreg_run_kept.h"

#include <dirent.h>
#include <errno.h>
#include <fcntl.h>
#include <limits.h>
#include <stdio.h>
#include <stdlib.h>
#include <string.h>
#include <sys/statvfs.h>
#include <unistd.h>

uint64_t number_of_paths(const struct keeping *it, const struct program *program,
                         const char *disk) {
    char one[PATH_MAX], other[PATH_MAX];
    if (!realpath(disk, one) || !realpath(program->path, other)) return 0;
    uint64_t number = mixed(number_of_options(&it->key), one, strlen(one) + 1);
    return mixed(number, other, strlen(other));
}

static int is_name(const char *it) {
    return strlen(it) == NAME_ROOM - 1 && strspn(it, "0123456789abcdef") == NAME_ROOM - 1;
}

int make_file(const struct keeping *it) {
    struct statvfs place;
    if (fstatvfs(it->folder, &place)) return -1;
    errno = EACCES;
    if (place.f_flag & ST_NOEXEC) return -1;
    int fd = openat(it->folder, ".", O_TMPFILE | O_RDWR | O_CLOEXEC, S_IRUSR | S_IWUSR);
    mode_t others = it->is_for_all ? S_IRGRP | S_IROTH : 0;
    if (fd < 0 || !fchmod(fd, S_IRUSR | S_IWUSR | others)) return fd;
    close(fd);
    return -1;
}

/* Gives a file its name. Returns 0, or -1 with errno. Naming a file only by its descriptor needs
 * CAP_DAC_READ_SEARCH, or Linux 6.10 or later. Without them, makes the name through /proc. */
static int link_file(const struct keeping *it, int fd) {
    char path[32];
    if (!linkat(fd, "", it->folder, it->name, AT_EMPTY_PATH)) return 0;
    if (errno == EEXIST) return -1;
    snprintf(path, sizeof path, "/proc/self/fd/%d", fd);
    return linkat(AT_FDCWD, path, it->folder, it->name, AT_SYMLINK_FOLLOW);
}

int name_file(const struct keeping *it, int fd) {
    enum { TRIES = 4 }; /* other processes keep images too */
    for (int i = 0; i < TRIES; i++) {
        if (!link_file(it, fd)) return 0;
        if (errno != EEXIST || (unlinkat(it->folder, it->name, 0) && errno != ENOENT)) return -1;
    }
    return -1;
}

/* ---- The images that are removed */

/* The two builds of the loader whose images stay: the build that is running, and the one of the
 * other builds that last kept an image. */
struct builds {
    const uint8_t *own;
    uint8_t other[BUILD];
    struct timespec time; /* time of that build's image; 0 if there is no other build */
};

static int is_of(const struct head *it, const uint8_t *build) {
    return !memcmp(it->key.build, build, BUILD);
}

/* Returns whether a kept image has an older key than `than`, or whether `than` replaces it because
 * both have the same paths. */
static int is_older(const struct head *it, const struct head *than) {
    const struct state *disk = &it->key.disk, *own = &than->key.disk;
    if (memcmp(it->key.boot, than->key.boot, sizeof it->key.boot)) return 1;
    if (it->place == than->place && is_of(it, than->key.build)) return 1;
    return disk->kind == own->kind && disk->device == own->device && disk->number == own->number &&
           (memcmp(disk, own, sizeof *disk) || memcmp(it->key.roots, than->key.roots, ROOTS));
}

/* Reads the head of another image of the folder, and the time at which the image was kept. Returns
 * whether the file is an image. */
static int read_head(const struct keeping *it, const char *name, struct head *head,
                     struct timespec *time) {
    struct stat found;
    uint64_t length;
    if (!is_name(name) || !strcmp(name, it->name)) return 0;
    int fd = open_kept(it, name, &length);
    if (fd < 0) return 0;
    int is = !fstat(fd, &found) && pread(fd, head, sizeof *head, 0) == sizeof *head &&
             !memcmp(head->form, kept_form, sizeof head->form);
    close(fd);
    if (is) *time = found.st_mtim;
    return is;
}

static void see_build(struct builds *it, const struct head *head, struct timespec time) {
    if (is_of(head, it->own) || time.tv_sec < it->time.tv_sec ||
        (time.tv_sec == it->time.tv_sec && time.tv_nsec < it->time.tv_nsec))
        return;
    memcpy(it->other, head->key.build, BUILD);
    it->time = time;
}

static void drop_all_older(const struct keeping *it, const struct head *than, DIR *all) {
    struct builds builds = { .own = than->key.build };
    struct timespec time;
    struct dirent *one;
    struct head head;
    while ((one = readdir(all)))
        if (read_head(it, one->d_name, &head, &time)) see_build(&builds, &head, time);
    rewinddir(all);
    while ((one = readdir(all)))
        if (read_head(it, one->d_name, &head, &time) &&
            (is_older(&head, than) || !(is_of(&head, builds.own) || is_of(&head, builds.other))))
            unlinkat(it->folder, one->d_name, 0);
}

void drop_older(const struct keeping *it, const struct head *head) {
    int fd = openat(it->folder, ".", O_RDONLY | O_DIRECTORY | O_CLOEXEC);
    DIR *all = fd < 0 ? NULL : fdopendir(fd);
    if (!all) {
        if (fd >= 0) close(fd);
        return;
    }
    drop_all_older(it, head, all);
    closedir(all);
}

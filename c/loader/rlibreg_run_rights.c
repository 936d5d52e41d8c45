/* Finds out whether every user may read a file. */
#define _GNU_SOURCE
#include "rlibreg_run_kept.h"

#include <limits.h>
#include <stdlib.h>
#include <string.h>
#include <sys/xattr.h>

/* Returns whether the group and others have these rights to the file of a path. A list of rights
 * (ACL) may deny a user what the mode permits to all. So if a file has such a list, the answer is
 * no. */
static int has_rights(const char *path, mode_t rights) {
    struct stat found;
    return !stat(path, &found) && (found.st_mode & rights) == rights &&
           getxattr(path, "system.posix_acl_access", NULL, 0) <= 0;
}

/* Returns whether a real path names an open file. */
static int names(const char *path, int fd) {
    struct stat named, open;
    return !stat(path, &named) && !fstat(fd, &open) && named.st_dev == open.st_dev &&
           named.st_ino == open.st_ino;
}

/* Returns whether the group and others may search each folder of a real path. Shortens the path in
 * the process. */
static int is_within_reach(char *path) {
    char *end;
    while ((end = strrchr(path, '/')) && end > path) {
        *end = 0;
        if (!has_rights(path, S_IXGRP | S_IXOTH)) return 0;
    }
    return has_rights("/", S_IXGRP | S_IXOTH);
}

int may_all_read(const char *path, int fd) {
    char real[PATH_MAX];
    return realpath(path, real) && names(real, fd) && has_rights(real, S_IRGRP | S_IROTH) &&
           is_within_reach(real);
}

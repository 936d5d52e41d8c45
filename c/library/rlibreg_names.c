/* Finds out whether a path names a file, and whether the medium has the names of a folder.
 *
 * ext4's sync of a folder succeeds even if the system couldn't write the journal before; a power
 * cut then undoes the names. But no change begins on such a journal (EROFS), not even the removal
 * of an attribute that doesn't exist. On any other journal this removal returns ENODATA, and writes
 * nothing. Other errors show nothing about the journal: the file system has no attributes, or the
 * process has no permission. syncfs(2) reports the journal's failure too, but only once, and it
 * waits for everything that all programs have written. */
#define _GNU_SOURCE
#include "rlibreg_disk_file.h"

#include <errno.h>
#include <fcntl.h>
#include <sys/statvfs.h>
#include <sys/syscall.h>
#include <sys/sysmacros.h>
#include <sys/xattr.h>
#include <unistd.h>

#ifndef STATX_TYPE /* musl before 1.2.5 has neither the call nor its structure */
#include <linux/stat.h>
#endif

#define NO_ATTRIBUTE "user.rlibreg.none"

int rlibreg_is_same_file(const struct stat *one, const struct stat *other) {
    if (S_ISBLK(one->st_mode) && S_ISBLK(other->st_mode)) return one->st_rdev == other->st_rdev;
    return one->st_dev == other->st_dev && one->st_ino == other->st_ino;
}

int rlibreg_which_file(int folder, const char *path, struct stat *found) {
    struct statx it;
    const int flags = *path ? 0 : AT_EMPTY_PATH;
    if (syscall(SYS_statx, folder, path, flags, STATX_TYPE | STATX_INO, &it))
        return fstatat(folder, path, found, flags);
    *found = (struct stat){ .st_mode = it.stx_mode,
                            .st_ino = it.stx_ino,
                            .st_dev = makedev(it.stx_dev_major, it.stx_dev_minor),
                            .st_rdev = makedev(it.stx_rdev_major, it.stx_rdev_minor) };
    return 0;
}

int rlibreg_path_names(int folder, const char *path, const struct stat *file) {
    struct stat found;
    if (rlibreg_which_file(folder, path, &found)) return 0;
    errno = ESTALE;
    return rlibreg_is_same_file(&found, file);
}

int rlibreg_names_last(int folder) {
    struct statvfs found;
    if (fstatvfs(folder, &found) || found.f_flag & ST_RDONLY) return 0;
    int is_taken = !fremovexattr(folder, NO_ATTRIBUTE);
    return is_taken || (errno != EROFS && errno != EIO) ? 0 : -1;
}

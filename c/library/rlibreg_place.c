/* Checks whether the path of a file that is being changed still names the file, and whether the
 * file still has its length. rlibreg_change.c calls this before and after each change. */
#define _GNU_SOURCE
#include "rlibreg_disk_file.h"

#include <errno.h>
#include <fcntl.h>
#include <string.h>
#include <unistd.h>

int rlibreg_place_take(struct place *it, const char *path) {
    it->folder = -1;
    if (strlen(path) >= sizeof it->path) {
        errno = ENAMETOOLONG;
        return -1;
    }
    it->folder = AT_FDCWD;
    if (path[0] != '/')
        it->folder = rlibreg_open_apart(AT_FDCWD, ".", O_PATH | O_DIRECTORY | O_CLOEXEC);
    if (it->folder == -1) return -1;
    strcpy(it->path, path);
    return 0;
}

void rlibreg_place_end(struct place *it) {
    int why = errno;
    if (it->folder >= 0) close(it->folder);
    errno = why;
    it->folder = -1;
    it->path[0] = 0;
}

int rlibreg_has_length(const struct disk_file *file) {
    off_t length = lseek(file->fd, 0, SEEK_END);
    if (length >= 0) errno = ESTALE;
    return length == (off_t)file->length;
}

int rlibreg_is_in_place(const struct place *it, const struct disk_file *file) {
    struct stat opened;
    if (!rlibreg_has_length(file)) return 0;
    if (!it->path[0]) return 1; /* the file has no name yet */
    if (rlibreg_which_file(file->fd, "", &opened)) return 0;
    return rlibreg_path_names(it->folder, it->path, &opened);
}

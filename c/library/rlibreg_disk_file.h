/* The file of a disk, for the calls over a file (rlibreg_registry.h). The programs and the loader
 * use parts of it. Nothing here is for users. */
#ifndef RLIBREG_DISK_FILE_H
#define RLIBREG_DISK_FILE_H

#include "rlibreg.h"
#include "rlibreg_process.h"

#include <limits.h>
#include <sys/stat.h>
#include <sys/types.h>

/* An open and locked file or block device. As long as it is open, it stays at its address, because
 * it is in a list. */
struct disk_file {
    int fd;               /* descriptor that has the lock, or -1 */
    int claim;            /* descriptor by which a device is open exclusively, so that nothing
                           * else can use it; or -1 */
    const uint8_t *bytes; /* map of the file, or null */
    size_t length;

    struct process owner; /* process that locked the file or waits for its lock, or none */
    dev_t device;
    ino_t number;
    int is_alone;           /* whether the lock is exclusive */
    int is_waiting;         /* whether the process still waits for the lock */
    uint64_t thread;        /* number of the thread that uses the file */
    unsigned search;        /* number of the last search that found the file */
    struct disk_file *next; /* next file whose lock this process has or waits for */
    int64_t until;          /* moment at which the wait for the lock ends; it stays set when the
                             * file is closed */
};

#define NO_DISK_FILE ((struct disk_file){ .fd = -1, .claim = -1 })

/* The maximum number of attempts with one name, because other processes may give the name to other
 * files in between. */
enum { MOST_TRIES = 16 };

/* Opens a file of a folder as openat does, but opens the standard streams first if they aren't
 * open. The file's descriptor is never that of a standard stream (rlibreg_streams.c). Returns it,
 * or -1 with errno. */
int rlibreg_open_apart(int folder, const char *path, int flags);

/* Returns the number of a standard stream that may be written and is the file `file`; errno is then
 * ETXTBSY. Also returns the number of a stream about which the system reports nothing. If there are
 * several such streams, returns the last. Returns -1 if there is none. */
int rlibreg_stream_of_file(const struct stat *file);

/* Opens and locks the file of `path`, and maps its bytes as the medium has them. Returns a
 * status. */
uint32_t rlibreg_disk_file_open(struct disk_file *it, const char *path, unsigned flags);

/* Maps the bytes of a file that is open and locked, as the medium has them. Returns a status. */
uint32_t rlibreg_disk_file_map(struct disk_file *it, unsigned flags);

/* Checks whether the medium has the roots that the system shows (rlibreg_front.c). Call this after
 * a successful sync of an opening, and before any map. If the medium doesn't have these roots,
 * makes the system drop them. If that fails, and the file is open for changes, writes the shown
 * roots to the medium and calls `sync`. Returns 0, or -1 with errno, which is EIO if the medium
 * still has other roots. */
int rlibreg_meet_front(int fd, int (*sync)(int));

/* Locks a file that is open, and puts it into the list of the locks of this process. Returns a
 * status. The status is RLIBREG_LOCKED, even with RLIBREG_WAIT, if this thread would wait for
 * itself, and RLIBREG_SYSTEM with ENOMEM if forks can't be watched. */
uint32_t rlibreg_disk_file_lock(struct disk_file *it, const struct stat *found, unsigned flags);

/* Puts a file that is locked exclusively into the list of the locks of this process. Returns a
 * status in the same way as rlibreg_disk_file_lock. */
uint32_t rlibreg_disk_file_enlist(struct disk_file *it, const struct stat *found);

/* Records that the calling thread uses the file. */
void rlibreg_disk_file_use(struct disk_file *it);

/* Closes the open descriptors, and leaves errno unchanged. Releases the lock only if this process
 * locked the file, because a child of fork shares its parent's lock. */
void rlibreg_disk_file_close(struct disk_file *it);

/* Binds a program in the same way as rlibreg_bind_program. At first the image's bytes have room for
 * `first_bytes` bytes, which are 16 MiB or more (rlibreg_image.c). Returns a status. */
uint32_t rlibreg_image_in(rlibreg *registry, const void *program, size_t length, uint64_t base,
                          rlibreg_image *image, size_t first_bytes);

/* Returns the descriptor of the file that `registry` has open, or -1 (rlibreg_file.c). */
int rlibreg_descriptor(const rlibreg *registry);

/* ---- The path of the file (rlibreg_place.c) */

struct place {
    int folder;          /* folder from which a relative path begins, or a number below 0 */
    char path[PATH_MAX]; /* empty if the file has no name yet */
};

/* rlibreg_place_take stores the path of a file, and returns 0, or -1 with errno. rlibreg_place_end
 * drops the path, and leaves errno unchanged. */
int rlibreg_place_take(struct place *it, const char *path);
void rlibreg_place_end(struct place *it);

/* rlibreg_has_length returns whether a file still has the length with which it was mapped.
 * rlibreg_is_in_place returns whether, in addition, the path still names the file. If the result is
 * 0, errno has the reason: ESTALE if the length or the file has changed. */
int rlibreg_has_length(const struct disk_file *file);
int rlibreg_is_in_place(const struct place *it, const struct disk_file *file);

/* ---- Making the file of a disk (rlibreg_new_disk.c)
 *
 * The file is made under another name in the same folder. A process that gives a file this name, or
 * removes the name, has locked that file. */

struct new_disk {
    int folder;               /* folder in which the disk is made, or -1 */
    const char *name;         /* name of the disk in the folder */
    char other[NAME_MAX + 1]; /* name that the file has until it is whole */
};

/* Makes a file of zeros under the other name, locks it and maps it. Returns a status. With
 * RLIBREG_WAIT, waits for another process that is making the disk. The caller must call
 * rlibreg_new_disk_end in every case. */
uint32_t rlibreg_new_disk_make(struct new_disk *it, const char *path, size_t length,
                               struct disk_file *file, unsigned flags);

/* Gives the file its own name. Returns a status. RLIBREG_SYSTEM: the file doesn't have the name;
 * errno is EEXIST if another file has it. RLIBREG_DEVICE: the file has the name, but a power cut
 * may undo this. */
uint32_t rlibreg_new_disk_name(const struct new_disk *it, const struct disk_file *file);

/* Removes the other name if the file still has it, and leaves errno unchanged. */
void rlibreg_new_disk_end(const struct new_disk *it, const struct disk_file *file);

/* Syncs the folder that has the file of `path`, and makes sure that its names are on the medium.
 * Returns 0, or -1 with errno. */
int rlibreg_sync_folder(const char *path);

/* Returns whether two files are the same: the same inode, or the same block device at any two
 * nodes. */
int rlibreg_is_same_file(const struct stat *one, const struct stat *other);

/* Finds out which file `path` names, relative to `folder`. If `path` is empty, this is the file
 * `folder`. Sets the type, the numbers of the file and of its file system, and the number of a
 * device in `found` (rlibreg_names.c). Returns 0, or -1 with errno. Doesn't read the file's times:
 * from Linux 6.13 on, the next write would then change the times, and the next sync would have to
 * write them. On ext4 this takes up to a third of the time of a change. */
int rlibreg_which_file(int folder, const char *path, struct stat *found);

/* Returns whether `path`, relative to `folder`, names the file `file`. If it doesn't, errno has the
 * reason: ESTALE if it names another file (rlibreg_names.c). */
int rlibreg_path_names(int folder, const char *path, const struct stat *file);

/* Checks, after a successful sync of a folder, whether its names are on the medium
 * (rlibreg_names.c). Returns -1 with errno if they aren't, and otherwise 0, even if this is
 * unknown. */
int rlibreg_names_last(int folder);

#endif

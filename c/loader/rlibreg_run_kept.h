/* Images that are kept from start to start: the parts of the loader's option -c. Nothing here is
 * for users. */
#ifndef RLIBREG_RUN_KEPT_H
#define RLIBREG_RUN_KEPT_H

#include "rlibreg_run.h"

#include <sys/types.h>

/* ---- The key (rlibreg_run_key.c)
 *
 * Two images with equal keys are equal, if the bytes that each start compares are equal too. */

enum { ROOTS = 1024, MOST_COMPARED = 2 << 20 };

/* The identity of an open file or of a device, and the state of its bytes. The kinds of states are
 * these: */
enum {
    OF_FILE = 1, /* a file whose times show when it was changed */
    OF_DEVICE,   /* a device: no time shows when it was changed */
    OF_BYTES,    /* the program, of which the key has only the length, because its bytes are
                  * compared */
    OF_MEMORY    /* a file on tmpfs: a write through a shared map doesn't change its times */
};
struct state {
    uint64_t kind, device, number;
    uint64_t birth[2], modified[2], changed[2]; /* seconds and nanoseconds */
    uint64_t length, sequence; /* a device's disk sequence, or a file system's id */
};

/* The way in which the base is chosen. */
enum { AT_RANDOM_BASE = 1, AT_FIXED_BASE, AT_NAMED_BASE };

/* The maximum number of bytes of a build's id in the key, followed by zeros; and the minimum number
 * of bytes of an id. */
enum { BUILD = 32, LEAST_BUILD = 8 };

/* The key of an image. Each of its bytes belongs to a field, so keys are compared by their
 * bytes. */
struct key {
    uint8_t build[BUILD]; /* id of the loader's own build, which includes the binder */
    char boot[40];        /* id of the boot */
    uint8_t roots[ROOTS];
    struct state disk, program;
    uint64_t choice, base, may_be_both;
};

/* state_of reads the state of an open file. The other functions read the parts of the key: of the
 * loader, of the disk with the boot, and of the program with its options. All of them return 0, or
 * -1 if an image can't be kept. */
int state_of(int fd, struct state *it);
int key_of_loader(struct key *key);
int key_of_disk(int fd, struct key *key);
int key_of_program(const struct program *program, struct key *key);
int is_same_key(const struct key *one, const struct key *other);

/* Returns whether a disk may change although its state `disk` stays the same. If so, each start
 * compares all sources of an image. */
int is_compared(const struct state *disk);

/* Returns whether the next change will certainly give the file another state. Two changes in the
 * same clock tick leave the same times. */
int is_settled(const struct state *it);

/* ---- The file of an image (rlibreg_run_kept_file.c) */

enum { MOST_PIECES = 1 << 14, MOST_STRETCHES = 1 << 18, MOST_OBJECTS = 1 << 12 };
enum { MOST_CALLS = 1 << 20, MOST_NAMES = 1 << 22, MOST_PROGRAM = 16 << 20 };
#define MOST_OTHERS ((uint64_t)1 << 40)

/* Pages in a row. They lie one after the other in the file, or they are zeros and aren't in the
 * file. */
struct piece {
    uint64_t address, length;
    uint64_t from; /* offset in the file, or 0 */
    uint64_t how;  /* permissions: PROT_READ and so on */
};

/* Adjacent source bytes of the image, in the program's file or on the disk. The kept file has the
 * same bytes, in the pages of a piece if possible. */
struct stretch {
    uint64_t at, length; /* offset in the source, and length in bytes */
    uint64_t address;    /* address in a piece that may be read, or 0 */
    uint64_t from;       /* if the address is 0: offset in the kept file, before its pages */
};

struct counts {
    uint64_t pieces, of_program, of_disk /* stretches */, objects, initializers, finalizers;
    uint64_t names, program; /* numbers of bytes */
    uint64_t others;         /* number of bytes of stretches that are in no page of the image */
};

/* The first bytes of each kept file. */
extern const char kept_form[16];

/* The head of a kept file. A build of the loader also reads the heads that other builds with this
 * form wrote, so if you change the head or the key, change the form too. The parts of the file
 * follow each other in this order:
 *
 * - the head
 * - the pieces
 * - the stretches of the program's file, if that is compared, and of the disk, if that is compared
 * - the objects
 * - the addresses of the initializers and the finalizers
 * - the objects' names, each followed by a byte 0
 * - the stretches that aren't equal to pages of the image
 * - from the next page on, the pages of the pieces
 *
 * The parts up to the names are the file's beginning. */
struct head {
    char form[16];
    uint64_t check; /* check of all other bytes of the beginning, except the form */
    struct key key;
    uint64_t place; /* number made of the paths and the options */
    uint64_t length;
    struct counts counts;
};

/* The beginning of a kept file in memory, and its parts. */
struct kept_file {
    struct head *head;
    struct piece *pieces;
    struct stretch *stretches; /* stretches of the program, and then those of the disk */
    rlibreg_object *objects;
    uint64_t *calls;
    char *names;
};

/* place_of_others returns the offset in a kept file at which the beginning ends and the other
 * stretches begin. place_of_pages returns the offset at which the pages begin. */
uint64_t place_of_others(const struct counts *counts);
uint64_t place_of_pages(const struct counts *counts);

/* Returns the parts of the beginning of a kept file at `beginning`. Its head has the length of each
 * part. */
struct kept_file parts_of(void *beginning);

/* Returns the piece that has an address, or null. It is the last piece that begins at the address
 * or below. */
const struct piece *piece_with(const struct piece *first, size_t count, uint64_t address);

/* Returns the check of a beginning. It changes with each byte of the beginning. */
uint64_t check_of(const struct head *head);

/* is_head returns whether a head has this form, and fits a file of `length` bytes. is_whole returns
 * whether the beginning is valid. A file is used only if both are true. */
int is_head(const struct head *head, uint64_t length);
int is_whole(const struct kept_file *it);

/* ---- The sources of an image (rlibreg_run_sources.c) */

/* Adjacent bytes of a disk. They belong to the file of object number `object`, from offset `offset`
 * on. If the number is 0, they belong to no file. */
struct extent {
    uint64_t at, length, offset;
    size_t object;
};

/* The bytes of a disk that a bind reads, except the roots; and a copy of the disk, of the same
 * length, that has only these bytes and the roots. */
struct sources {
    uint8_t *copy; /* the copy, or null */
    uint64_t length;
    struct extent *at;
    size_t count, room;
};

/* Copies the sources of the program's image. The disk is locked and has the key `key`. Returns 0,
 * or -1 if the bytes can't be read or the image depends on other bytes. After -1, there is nothing
 * to free. */
int take_sources(struct sources *it, const struct program *program, int disk, const struct key *key);
void free_sources(struct sources *it);

/* ---- The folder (rlibreg_run_folder.c) */

enum { NAME_ROOM = 17 };

/* The folder in which images are kept, and the image of this start. */
struct keeping {
    const char *path; /* path of the folder, or null if no image is used or kept */
    int says_more;    /* whether to print to standard error what is done */
    /* Prints `what` or, if it is null, the text of `error`. The pointer is null until the C library
     * is set up. */
    void (*say)(const struct keeping *it, const char *what, int error);
    uid_t user;       /* effective user id */
    int folder;       /* descriptor of the folder; -1 if images aren't kept there */
    int is_for_all;   /* whether every user may read the folder, the disk and the program */
    int may_keep;     /* whether an image that is bound now may be kept */
    int file;         /* descriptor of an image's file that is whole and has no name yet, or 0 */
    void *beginning;  /* beginning of that file, or null */
    struct sources sources; /* sources of the image, if the disk is compared */
    struct key key;
    char name[NAME_ROOM]; /* name of an image that has this key */
};

/* Opens the folder. The folder must belong to the user or to root, and nobody else may write it.
 * Returns 0, or an error as a negative number. */
int open_folder(struct keeping *it);

/* Opens the image with this name. The file must meet the same conditions as the folder, and have no
 * other name. Returns the file's descriptor, and sets `length` to the file's length. If this fails,
 * returns an error as a negative number. */
int open_kept(const struct keeping *it, const char *name, uint64_t *length);

/* give_name sets the name of the image. Images that replace each other have the same name.
 * number_of_options returns a number for the options, and mixed returns `number` mixed with
 * bytes. */
void give_name(struct keeping *it, const struct program *program);
uint64_t number_of_options(const struct key *key);
uint64_t mixed(uint64_t number, const void *bytes, size_t length);

void close_folder(struct keeping *it);

/* ---- The arguments (rlibreg_run_words.c) */

/* Reads all arguments before DISK, and sets `next` to the index of DISK. Returns whether the
 * arguments have a valid form. */
int read_options(struct program *it, struct keeping *keeping, int argc, char **argv, int *next);

/* ---- The files of the folder (rlibreg_run_named.c) */

/* make_file makes a file without a name, and returns its descriptor. name_file gives a complete
 * file its name, in place of the file that has the name. Both return -1 with errno if they fail. */
int make_file(const struct keeping *it);
int name_file(const struct keeping *it, int fd);

/* Removes the images whose keys are older than that of `head`, an image that is about to be kept.
 * Also removes the images of other builds of the loader, except those of the build that last kept
 * an image. */
void drop_older(const struct keeping *it, const struct head *head);

/* Returns whether every user may read the open file of a path, and reach it by its real path
 * (rlibreg_run_rights.c). */
int may_all_read(const char *path, int fd);

/* Returns a number for the options and the real paths of the program and the disk. Images with the
 * same number replace each other. */
uint64_t number_of_paths(const struct keeping *it, const struct program *program, const char *disk);

/* ---- Making the file of an image (rlibreg_run_stretches.c) */

/* The pieces of an image that have been found so far, in the order of their addresses. */
struct pieces {
    struct piece *at;
    size_t count;
    int is_too_many;
};

/* The stretches that have been found so far: those of the program, and then those of the disk. */
struct stretches {
    struct stretch *at;
    size_t count, room;
    size_t first;    /* index of the first stretch of the list that is being made */
    uint64_t others; /* number of bytes that are in no page of the image */
    int has_failed;  /* whether memory was refused */
};

void find_stretches_of_program(struct stretches *it, const struct program *program,
                               const struct pieces *pieces);
void find_stretches_of_disk(struct stretches *it, const struct program *program,
                            const struct sources *sources, const struct pieces *pieces);

/* Sets the offsets in the file of the stretches that are in no page, from `others` on. */
void place_stretches(struct stretches *it, uint64_t others);

/* Writes the file of an image, whose beginning has been made, to an empty file, and syncs it
 * (rlibreg_run_write.c). Returns 0, or -1 if this failed. */
int write_kept(int fd, const struct keeping *it, const struct program *program,
               const struct kept_file *file);

/* ---- Comparing (rlibreg_run_compare.c)
 *
 * These functions return 0 if the bytes are those that were kept, and IS_OTHER if they aren't. If
 * the kept file can't be read, they return an error as a negative number. */

enum { IS_OTHER = 1 };

/* Reads exactly `length` bytes of a file, from the offset `at` on. */
int read_exactly(int fd, void *to, uint64_t length, uint64_t at);

/* Compares all sources of an image. The image's pieces are mapped. */
int compare_image(const struct program *program, int disk, int kept, const struct kept_file *it);

/* ---- Taking (rlibreg_run_kept.c) and keeping (rlibreg_run_keep.c) */

/* Print to standard error, if the user has requested this (-v). */
void say_more(const struct keeping *it, const char *what);
void say_error(const struct keeping *it, int error);

/* Maps the image that is kept for a program and a disk, with everything that a start needs. Returns
 * whether there is a matching image; if there isn't, maps nothing. If the folder could be opened,
 * it stays open. */
int take_kept(struct keeping *it, struct program *program, const char *disk);

/* Decide whether an image of the program may be kept for a disk. The disk is open and locked. Call
 * look_at_disk before the program is bound, and look_at_image after it. */
void look_at_disk(struct keeping *it, const struct program *program, const char *path, int disk);
void look_at_image(struct keeping *it, const struct program *program, int disk);

/* keep makes the file of the image, before the image's pages are protected and any of its code
 * runs. name_kept gives the file its name, after the pages are protected, because an image that
 * isn't started isn't kept. After that, this process shares the file's pages too. An error in these
 * calls doesn't make the start fail. */
void keep(struct keeping *it, const struct program *program, const char *disk);
void name_kept(struct keeping *it);

#endif

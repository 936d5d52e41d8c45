/* rlibreg.h: a registry of shared libraries that survives power cuts, and a binder of programs.
 *
 * A registry lies on a disk, which is a file or a block device. The disk's sectors of 512 bytes
 * hold ELF-64 shared objects for x86-64, each under its SONAME. They also hold the names of the
 * preloads, which are libraries that every program is bound with. To bind a program is to find the
 * libraries that it needs, to place all of them in memory, and to apply their relocations. The
 * result is an image.
 *
 * docs/COMMANDS.md has the rules of both, every refusal by its number, and the limits. docs/C.md
 * has two whole programs, and describes what is proved of this library.
 *
 * EXAMPLE
 *
 * This program prints the names of the libraries of the registry in the file `disk`. It returns 1
 * if the file can't be opened, and 2 if the registry can't be read.
 *
 *     #include <rlibreg.h>
 *     #include <stdio.h>
 *     int main(void) {
 *         rlibreg *it = rlibreg_create();
 *         rlibreg_listing found;
 *         if (!it || rlibreg_open(it, "disk", RLIBREG_WAIT)) return 1;
 *         if (rlibreg_get_listing(it, &found)) return 2;
 *         for (size_t i = 0; i < found.libraries; i++)
 *             puts(found.names + found.entries[i].name);
 *         rlibreg_listing_free(&found);
 *         rlibreg_close(it);
 *     }
 *
 * LAYERS
 *
 * There are two layers of calls.
 *
 * 1. Calls over bytes (rlibreg_bind, rlibreg_bindings, rlibreg_executable, rlibreg_list,
 *    rlibreg_file, rlibreg_digest, rlibreg_info, rlibreg_check, rlibreg_plan_*). Each is proved to
 *    return, to do nothing undefined, and to return what is defined (docs/C.md). They do no input
 *    or output: the caller has the bytes of the disk in memory. It gets an image, the bindings of
 *    an image's symbols, or an executable file; a listing, a library's bytes or their digest,
 *    information on the registry, or a finding on each library; or a plan. A plan is the list of
 *    the writes and syncs that make a change.
 * 2. Calls over a file (struct rlibreg and the calls after it). They are written in C over the
 *    first layer. They open, lock and map the file, and carry plans out. They are tested, not
 *    proved.
 *
 * Use the second layer, unless the disk isn't a file, or you do the input and output yourself.
 *
 * LOCKS
 *
 * - A disk has one writer at a time, and nobody reads it meanwhile. A process that changes the disk
 *   takes its lock (flock(2)) exclusively; processes that only read it share the lock. The calls
 *   over a file do this, and so does the program `rlibreg`. If the disk is locked, the program ends
 *   with status 3, but a change tries for two seconds first.
 * - So a caller needs no lock of its own. A process that locks the disk around the program (`flock
 *   DISK rlibreg ..`) locks the program out. To make several calls without calls of other processes
 *   in between, lock another file (`flock DISK.lock rlibreg ..`). All other processes then have to
 *   lock that file too.
 * - A change that waits gets its turn, even if loaders come one after the other. A process that
 *   opens the disk to read gives way to it, for two seconds at most. A reader is never refused
 *   because it gives way, but only because of the lock. The change marks the disk by an open file's
 *   lock of fcntl(2) on a byte past the disk's end. Over NFS, SMB, 9p, AFS and Lustre, where
 *   flock(2) is such a lock itself, there is no mark.
 * - To put another file in the disk's place, hold the lock of the file that is there (`flock DISK
 *   mv NEW DISK`). Once the library or the program has a lock, it checks that the path still names
 *   the file that it locked. If it doesn't, the path is opened again.
 * - A lock of flock(2) is advice: it stops no process that doesn't ask for it. Every process that
 *   may read the disk can lock it. Over NFS the lock may do nothing. A child of fork has the lock
 *   too, until the process that opened the disk closes it. If that process ends without closing it,
 *   the disk stays locked as long as the child keeps the file open.
 * - Each call checks the file's length. Before and after a change, the call also checks that the
 *   path still names the file, or the same block device. If the length has changed, or the path
 *   names something else, the call returns S1 (RLIBREG_DEVICE), with errno ESTALE, or with an errno
 *   for the reason why the path can't be checked. So a call never returns 0 for a change that
 *   nobody would see.
 *
 * FAILED WRITES
 *
 * - After a failed write, Linux treats the pages as written, and shows them to every reader. So an
 *   opening syncs the file. Then it compares the registry's two roots, the sectors that lead to the
 *   current state, as the system shows them and as the medium has them. It reads the medium past
 *   the system's memory. If the roots differ, the library makes the system drop the roots that it
 *   shows. This fails if a process without the lock has the roots mapped. Then an opening for
 *   changes writes the shown roots to the medium, and an opening for reading is refused with
 *   RLIBREG_SYSTEM and EIO. Locked memory (mlockall) makes no difference.
 * - Encrypted and compressed files, loop devices without direct I/O, and file systems without
 *   O_DIRECT can't be read past the system's memory. There an opening for changes always writes the
 *   shown roots to the medium, and an opening for reading may show a change that returned S1.
 *
 * STANDARD STREAMS
 *
 * - Nothing that a process prints ever goes into a disk. If one of the descriptors 0, 1 and 2 isn't
 *   open, /dev/null is opened there, for reading only, before any file is opened, and stays open.
 *   Otherwise the disk would get that number. (If another thread closes such a descriptor at that
 *   moment, the disk gets its number for a short time, and then another one.)
 * - A disk that is also open for writing as 0, 1 or 2 is refused when it is opened and at each
 *   change: RLIBREG_SYSTEM, with errno ETXTBSY. A process that prints before it opens the disk has
 *   to call rlibreg_stream_of first.
 *
 * MEDIA
 *
 * - The two roots lie in one block of 4,096 bytes. A medium that ruins a block of that size while
 *   it writes the block can lose both.
 * - There is no checksum. A byte that changed on the medium within a library's code isn't detected,
 *   not by rlibreg_check either. To detect such a byte, compare the digests of the installed files
 *   with those of rlibreg_digest.
 * - A sector that the medium can't read ends the process by SIGBUS, in each call over a file,
 *   because the file is mapped. So does a file that is shortened during a call, and, except in
 *   rlibreg_format, a hole that is read on a full tmpfs. A process that has to survive this reads
 *   the bytes into memory under the lock, which fails with an errno, and makes the calls over
 *   bytes. The host of docs/C.md does so.
 * - A disk that may only be read, or is on a read-only file system, can be read. There a sync that
 *   fails with EINVAL has nothing to do, and counts as done. A sync that fails with EROFS has
 *   failed: a file system that a failure has made read-only returns EROFS.
 * - The disk can be a block device or a partition. It is opened exclusively for a change, which is
 *   refused with EBUSY if the device is mounted or in use in another way. Readers share the device.
 *   The lock is that of the device's node, so all processes have to name the same node. The
 *   system's udev holds the lock for a moment after each change, so a change without RLIBREG_WAIT
 *   tries for two seconds there.
 * - Each call opens the registry again. It reads the roots, the catalogues (sectors that list the
 *   libraries) and one sector for each library. It reads only those libraries' files that a bind
 *   needs. So a library that is damaged or can't be read affects only rlibreg_check and a bind that
 *   needs it, which returns S5 (RLIBREG_DAMAGED) or S1. The program `rlibreg` tests all of them at
 *   each command. rlibreg_plan_upgrade reads and tests each library once, as the program does.
 *
 * THREADS AND MEMORY
 *
 * - A bound image is memory, not a process: no call of the library runs code of the image. A caller
 *   that maps the image calls the program's DT_PREINIT_ARRAY, and then the libraries' initializers
 *   (DT_INIT, DT_INIT_ARRAY), before its entry, as rlibreg-run does. The dynamic sections of the
 *   objects list these functions.
 * - Several threads may make calls at the same time, on different struct rlibreg. Only one thread
 *   at a time uses one struct. A signal handler makes no calls. Nor, in a process of several
 *   threads, does a child between fork and exec. A thread that makes calls needs 512 KiB of stack.
 * - A child is distinguished from its parent even if both have the same process number. For
 *   example, both can be process 1, in a container and in a process namespace that it makes. A
 *   child of vfork, or of clone(2) with CLONE_VM, shares its parent's memory, and makes no calls.
 *   If fork can't be watched for want of memory (pthread_atfork), nothing is opened:
 *   RLIBREG_SYSTEM, with errno ENOMEM.
 * - pthread_cancel ends no call that opens, changes or closes a file. The call returns first, and
 *   the thread ends at its next cancellation point. It keeps the lock until rlibreg_close, which a
 *   cleanup handler has to call (pthread_cleanup_push). A wait for a lock isn't cancelled either,
 *   but a limit ends it (rlibreg_set_wait_limit). A thread that can be cancelled asynchronously
 *   makes no calls.
 * - malloc, realloc and free are those of the program, and all three belong to one allocator.
 *   malloc and realloc have to align a block to each power of two up to 16 that divides its size.
 *   Each block is freed before the call ends, except the blocks for which the description of a call
 *   names who frees them. */
#ifndef RLIBREG_H
#define RLIBREG_H

#include <stddef.h>
#include <stdint.h>

#ifdef __cplusplus
extern "C" {
#endif

/* Asserts sizes and offsets on which the archive depends. */
#if defined __cplusplus && __cplusplus < 201103L
#define RLIBREG_SAME(what) typedef char rlibreg_same[(what) ? 1 : -1]
#elif defined __cplusplus
#define RLIBREG_SAME(what) static_assert(what, #what)
#else
#define RLIBREG_SAME(what) _Static_assert(what, #what)
#endif

/* ---- Version
 *
 * rlibreg_version returns the version of the library that is called, and RLIBREG_VERSION is that of
 * this header: 10,000 * major + 100 * minor + patch. If major or minor changes, callers have to be
 * compiled again: the shared library's name has the two, as in librlibreg.so.0.4. */
#define RLIBREG_VERSION 400
uint32_t rlibreg_version(void);

/* ---- Statuses
 *
 * Each call returns a status. 0 means that the call succeeded. 1 to 9 are the library's own. A
 * greater status is a refusal of docs/COMMANDS.md: the number of the refusal, plus 100 for B (of a
 * bind), 200 for C (of a command) or 300 for S (of the disk). For example, 103 means B3 (Missing).
 * A status from 401 on is the reason why a bound program has no executable file (docs/TOOL.md).
 * rlibreg_status_name returns the name of a status. */
enum {
    RLIBREG_DONE = 0,
    RLIBREG_BUFFER_TOO_SMALL = 1, /* a buffer is too small: the answer has the sizes */
    RLIBREG_BAD_ARGUMENT = 2,     /* an argument isn't what the call requires */
    RLIBREG_SYSTEM = 3,           /* a file can't be opened, locked, synced, made or mapped: errno */
    RLIBREG_LOCKED = 4,           /* another process, or this one, has locked the file */
    RLIBREG_READ_ONLY = 5,        /* the file wasn't opened for changes, as this call requires */

    RLIBREG_BAD_PROGRAM = 101,      /* B1: the program's file is refused, by the test file_refusal */
    RLIBREG_BAD_BASE = 102,         /* B2: the base isn't a multiple of the program's unit */
    RLIBREG_MISSING = 103,          /* B3: a needed library isn't installed; the text names both */
    RLIBREG_ADDRESS_TOO_HIGH = 104, /* B4: an object's memory would end above 2^47 - 4,096 */
    RLIBREG_UNDEFINED = 105,        /* B5: a symbol is bound to nothing; the text names it */

    RLIBREG_BAD_FILE = 201,          /* C1: the file is no library, by the test file_refusal */
    RLIBREG_ALREADY_INSTALLED = 202, /* C2: a library of this SONAME is installed */
    RLIBREG_NOT_INSTALLED = 203,     /* C3: no library has this name */
    RLIBREG_IN_PRELOADS = 204,       /* C4: a library isn't removed as long as it is a preload */
    RLIBREG_REPEATED_PRELOAD = 205,  /* C5: a name is given twice */
    RLIBREG_TOO_MANY_PRELOADS = 206, /* C6: there are more than 16 names */

    RLIBREG_DEVICE = 301,            /* S1: a write or a sync failed: open the file again */
    RLIBREG_REOPEN = 302,            /* S2: a write or a sync failed before */
    RLIBREG_NOT_FORMATTED = 303,     /* S3: the disk holds no registry */
    RLIBREG_ALREADY_FORMATTED = 304, /* S4: the disk holds a registry */
    RLIBREG_DAMAGED = 305,           /* S5: no write that was cut off leaves these bytes */
    RLIBREG_BAD_GEOMETRY = 306,      /* S6: not 8 to 4,194,304 whole sectors, or not SECTORS */
    RLIBREG_FULL = 307,              /* S7: fewer sectors are free than the change takes */
    RLIBREG_FRAGMENTED = 308,        /* S8: the unused sectors lie in too many runs */
    RLIBREG_TOO_MANY = 309,          /* S9: there would be more than 2,048 libraries */
    RLIBREG_GENERATION_END = 310,    /* S10: the registry was changed 2^64 - 1 times */
    RLIBREG_OUT_OF_MEMORY = 311,     /* S11: memory was refused */
    RLIBREG_OLD_FORMAT = 312,        /* S12: the disk is of version 1, and has to be upgraded */

    RLIBREG_NO_ENTRY = 401,         /* the program has no entry in code of its own */
    RLIBREG_STATIC_PIE = 402,       /* the program relocates itself, by data that the file lacks */
    RLIBREG_PRE_INITIALIZERS = 403, /* the program has pre-initializers, which nobody would run */
    RLIBREG_INITIALIZERS = 404,     /* a library has initializers; the text names it */
    RLIBREG_FINALIZERS = 405,       /* a library has finalizers; the text names it */
    /* 406 was OutOfOrder, a status that no call ever returned. The number isn't used again. */
    RLIBREG_TOO_MANY_HEADERS = 407, /* there are more segments than the kernel takes */
    RLIBREG_WRITABLE_CODE = 408,    /* an object's memory could be written and executed */
    RLIBREG_NO_PAGES = 409          /* no pages are free for the headers */
};

/* Returns the name of a status, such as "B3 Missing". For a number that is no status it returns
 * "unknown". The text is never freed. */
const char *rlibreg_status_name(uint32_t status);

/* Returns the name of a test that refuses files, such as "E1 TooShort". NUMBER is the test's
 * number, which the answer's `file_refusal` has. For a number that no test has the call returns
 * "unknown". The text is never freed. */
const char *rlibreg_file_refusal_name(uint32_t number);

/* ---- What calls return */

/* The answer of a call, which writes it in every case. A field that the description of the call
 * doesn't mention is 0. */
typedef struct rlibreg_answer {
    uint32_t status;       /* the status, as the call returns it */
    uint32_t file_refusal; /* if the status is B1 or C1: n of the first test En that refuses */
    uint64_t count;        /* number of segments, libraries, steps or program headers; if an update
                            * is refused: number of changes before the one that is refused */
    uint64_t preloads;     /* number of preloads */
    uint64_t bytes;        /* number of bytes: of segments, names, a text, a file or a plan */
    uint64_t text;         /* length of the whole text, in bytes */
    uint64_t generation;   /* of a listing: number of changes that were made to the registry */
    uint64_t objects;      /* number of objects of an image */
} rlibreg_answer;

enum { RLIBREG_EXECUTE = 1, RLIBREG_WRITE = 2, RLIBREG_READ = 4 };

/* A segment of an image. */
typedef struct rlibreg_segment {
    uint64_t address;     /* address of its first byte */
    uint64_t length;      /* length in bytes; if it is 0, nothing has to be mapped */
    uint64_t offset;      /* offset of its bytes in the buffer of bytes */
    uint64_t permissions; /* a sum of RLIBREG_EXECUTE, RLIBREG_WRITE and RLIBREG_READ */
} rlibreg_segment;

/* An object of an image: the program or a library. Its addresses are addresses of the image. */
typedef struct rlibreg_object {
    uint64_t base;          /* number that is added to the addresses of its file */
    uint64_t name;          /* offset of its name in the buffer of bytes, after the segments */
    uint64_t name_length;   /* length of the name in bytes, without the byte 0 after it */
    uint64_t first_segment; /* number of its first segment in the image */
    uint64_t segments;      /* number of the image's segments that are its own; they are in a row */
    uint64_t headers;       /* address of its program headers, or 0 if no single segment has all of
                             * them; at the base 0 it may be 0 although one has */
    uint64_t header_count;  /* number of program headers of its file */
    uint64_t dynamic;       /* address of its dynamic section, or 0 in the same cases */
    uint64_t entry;         /* sum of its base and its file's e_entry, modulo 2^64 */
} rlibreg_object;

/* A library or a preload of a listing. */
typedef struct rlibreg_entry {
    uint64_t name;        /* offset of its name in the buffer of names */
    uint32_t name_length; /* length of the name in bytes, without the byte 0 after it */
    uint32_t file_length; /* length of a library's file in bytes; 0 for a preload */
} rlibreg_entry;

/* Information on a registry as a whole. */
typedef struct rlibreg_information {
    uint64_t version;        /* version of the disk's layout: 2 */
    uint64_t sectors;        /* number of sectors of the disk, of 512 bytes each */
    uint64_t generation;     /* number of changes that were made to the registry */
    uint64_t libraries;      /* number of libraries that are installed */
    uint64_t preloads;       /* number of preloads */
    uint64_t unused_sectors; /* number of sectors that nothing uses */
    uint64_t unused_runs;    /* number of runs of adjacent unused sectors */
    uint64_t largest;        /* length in bytes of the largest file that can be installed now
                              * under a new name, or 0 */
} rlibreg_information;

/* A finding on a library's file: one of these, or n if En is the first test that refuses the file
 * (rlibreg_file_refusal_name). */
enum {
    RLIBREG_SOUND = 0,       /* the file is a library of its name */
    RLIBREG_OTHER_NAME = 100 /* the file is a library of another name */
};

/* A library that was checked. */
typedef struct rlibreg_finding {
    uint64_t name;        /* offset of its name in the buffer of names */
    uint32_t name_length; /* length of the name in bytes, without the byte 0 after it */
    uint32_t finding;     /* RLIBREG_SOUND, 1 to 33, or RLIBREG_OTHER_NAME */
} rlibreg_finding;

/* A change of an update. One buffer has the bytes of all changes. */
typedef struct rlibreg_change {
    uint64_t kind;   /* RLIBREG_INSTALL, RLIBREG_REPLACE, RLIBREG_REMOVE or RLIBREG_PRELOAD */
    uint64_t offset; /* offset of its bytes in the buffer */
    uint64_t length; /* number of its bytes: of a file, of a name, or of names in a row */
} rlibreg_change;

enum { RLIBREG_INSTALL = 1, RLIBREG_REPLACE = 2, RLIBREG_REMOVE = 3, RLIBREG_PRELOAD = 4 };

RLIBREG_SAME(sizeof(rlibreg_answer) == 56);
RLIBREG_SAME(offsetof(rlibreg_answer, file_refusal) == 4);
RLIBREG_SAME(offsetof(rlibreg_answer, count) == 8);
RLIBREG_SAME(offsetof(rlibreg_answer, generation) == 40);
RLIBREG_SAME(offsetof(rlibreg_answer, objects) == 48);
RLIBREG_SAME(sizeof(rlibreg_segment) == 32);
RLIBREG_SAME(offsetof(rlibreg_segment, permissions) == 24);
RLIBREG_SAME(sizeof(rlibreg_object) == 72);
RLIBREG_SAME(offsetof(rlibreg_object, first_segment) == 24);
RLIBREG_SAME(offsetof(rlibreg_object, entry) == 64);
RLIBREG_SAME(sizeof(rlibreg_entry) == 16);
RLIBREG_SAME(offsetof(rlibreg_entry, file_length) == 12);
RLIBREG_SAME(sizeof(rlibreg_information) == 64);
RLIBREG_SAME(offsetof(rlibreg_information, generation) == 16);
RLIBREG_SAME(offsetof(rlibreg_information, unused_sectors) == 40);
RLIBREG_SAME(offsetof(rlibreg_information, largest) == 56);
RLIBREG_SAME(sizeof(rlibreg_finding) == 16);
RLIBREG_SAME(offsetof(rlibreg_finding, finding) == 12);
RLIBREG_SAME(sizeof(rlibreg_change) == 24);
RLIBREG_SAME(offsetof(rlibreg_change, offset) == 8);
RLIBREG_SAME(offsetof(rlibreg_change, length) == 16);
RLIBREG_SAME(sizeof(size_t) == 8 && sizeof(void *) == 8);

/* ---- Layer 1: bytes
 *
 * The caller has to guarantee the following, and no call checks it. A pointer leads to as many
 * bytes (or segments, objects, entries) as the next argument, a length or a room, has. Nobody
 * changes memory that a call only reads, until the call returns. Memory that a call writes overlaps
 * no other argument of the call. A pointer may be null if its length is 0. The caller has to
 * guarantee nothing else: whatever the bytes are, each call returns a status.
 *
 * The caller owns all memory. A call keeps no pointer and returns none, so there is nothing to
 * free.
 *
 * DISK has the DISK_LENGTH bytes of the disk's sectors, as the medium has them after a sync.
 * (FAILED WRITES describes what Linux does after a sync that failed.) A length that isn't a
 * multiple of 512 is refused with S6 (BadGeometry).
 *
 * Lengths are numbers of bytes. So are the rooms for bytes, names, texts and plans. The rooms for
 * objects, segments, entries and findings are numbers of these.
 *
 * TEXT receives the line or the reply that the program `rlibreg` prints in the same case: "ok\n", a
 * listing, or a refusal with its number and its names, such as "refused B3 Missing libtwo.so
 * libone.so\n". No byte 0 follows it. The answer's `text` is the length of the whole text. If
 * TEXT_ROOM is less, the buffer has the beginning, and the status is the same. The text is empty if
 * the result goes into another buffer: an image, bindings (also with B3 and B5), a file, a digest,
 * information or findings. With the statuses 1 to 9, which the program doesn't know, it is empty
 * too.
 *
 * If memory is refused, the call returns S11 (OutOfMemory), and has done nothing. No call of this
 * layer returns S1 (Device).
 *
 * If another buffer is too small, the call returns RLIBREG_BUFFER_TOO_SMALL. Then the contents of
 * the call's buffers are unspecified, and the answer has the sizes that are needed: call again with
 * these. */

/* Binds a program at an address, with the preloads and the libraries of the registry. PROGRAM has
 * the PROGRAM_LENGTH bytes of the program's file. BASE is the address, in bytes.
 *
 * With the status 0, OBJECTS has the answer's `objects` objects in load order, the program first.
 * SEGMENTS has `count` segments, from low addresses to high ones; those of one object are in a row.
 * BYTES has `bytes` bytes: the bytes of all segments in a row, and after them the objects' names,
 * each followed by a byte 0. The program's name is "/program", a library's name is its SONAME.
 * Segments don't overlap. Two segments of one object may share a page, but two of different objects
 * never do. Nothing of the registry is changed.
 *
 * Refusals: B1 to B5; S3, S5, S6, S11, S12. */
uint32_t rlibreg_bind(const uint8_t *disk, size_t disk_length, const uint8_t *program,
                      size_t program_length, uint64_t base, rlibreg_object *objects,
                      size_t objects_room, rlibreg_segment *segments, size_t segments_room,
                      uint8_t *bytes, size_t bytes_room, char *text, size_t text_room,
                      rlibreg_answer *answer);

/* Lists what the symbols of a program and of the libraries that it needs are bound to. PROGRAM has
 * the PROGRAM_LENGTH bytes of the program's file, and BASE is the address at which it is bound. The
 * status is the one that rlibreg_bind returns for this PROGRAM and BASE.
 *
 * With the statuses 0, B3 and B5, BYTES has the text that `rlibreg-tool bindings` prints
 * (docs/TOOL.md): the answer's `bytes` bytes, without a byte 0 after them. The text has the objects
 * in load order. For each of them it has the object's base, the names that it needs, and each
 * symbol that a relocation names, with the symbol's address and the object that defines it. With B5
 * (Undefined) it also has each symbol that is undefined. With B3 (Missing) it has what was found,
 * and each name that is missing, with the object that needs it. With every other status BYTES is
 * left as it was.
 *
 * Refusals: B1 to B5; S3, S5, S6, S11, S12. */
uint32_t rlibreg_bindings(const uint8_t *disk, size_t disk_length, const uint8_t *program,
                          size_t program_length, uint64_t base, char *bytes, size_t bytes_room,
                          char *text, size_t text_room, rlibreg_answer *answer);

/* Makes a static executable file of a bound program. PROGRAM has the PROGRAM_LENGTH bytes of the
 * program's file, and BASE is the address at which it is bound.
 *
 * With the status 0, BYTES has the file, the answer's `bytes` bytes. It loads exactly the image
 * that rlibreg_bind returns for this PROGRAM and BASE: Linux starts it without a loader and without
 * the registry. `count` is the number of its program headers. Linux before 6.17 starts no file with
 * more than 73 headers. With another status BYTES is left as it was. The call allocates the memory
 * of the image, and up to five times the memory of the image's segments.
 *
 * If the image has no such file, the status is the first of these that applies: RLIBREG_NO_ENTRY,
 * RLIBREG_STATIC_PIE, RLIBREG_PRE_INITIALIZERS, RLIBREG_INITIALIZERS, RLIBREG_FINALIZERS,
 * RLIBREG_TOO_MANY_HEADERS, RLIBREG_WRITABLE_CODE or RLIBREG_NO_PAGES. The third to the fifth of
 * them don't apply if the program declares by a note that it calls these functions itself
 * (rlibreg-tool(1)). TEXT then has the line of `rlibreg-tool executable`.
 *
 * Refusals: B1 to B5; S3, S5, S6, S11, S12. */
uint32_t rlibreg_executable(const uint8_t *disk, size_t disk_length, const uint8_t *program,
                            size_t program_length, uint64_t base, uint8_t *bytes,
                            size_t bytes_room, char *text, size_t text_room,
                            rlibreg_answer *answer);

/* Lists the libraries and the preloads of the registry.
 *
 * With the status 0, ENTRIES has the answer's `count` libraries in the order of their installation,
 * and after them the `preloads` preloads in their own order. NAMES has all their names in a row,
 * each followed by a byte 0, `bytes` bytes in all. `generation` is the number of changes that were
 * made since the registry was formatted. 2,064 entries and 497,424 bytes are always enough.
 *
 * Refusals: S3, S5, S6, S11, S12. */
uint32_t rlibreg_list(const uint8_t *disk, size_t disk_length, rlibreg_entry *entries,
                      size_t entries_room, char *names, size_t names_room, char *text,
                      size_t text_room, rlibreg_answer *answer);

/* Returns the bytes of a library's file, as they were installed. NAME has the NAME_LENGTH bytes of
 * the library's name, without a byte 0 after them.
 *
 * With the status 0, BYTES has the answer's `bytes` bytes of the file. Only this file is read: it
 * doesn't matter if another library's file is damaged. The call doesn't test whether the bytes are
 * still those of a library.
 *
 * Refusals: C3; S3, S5, S6, S11, S12. */
uint32_t rlibreg_file(const uint8_t *disk, size_t disk_length, const char *name, size_t name_length,
                      uint8_t *bytes, size_t bytes_room, char *text, size_t text_room,
                      rlibreg_answer *answer);

/* Returns the SHA-256 (FIPS 180-4) of a library's file. NAME has the NAME_LENGTH bytes of the
 * library's name, without a byte 0 after them.
 *
 * With the status 0, DIGEST has the SHA-256 of the bytes that rlibreg_file returns for this name.
 * It is the sum that sha256sum prints in hexadecimal. With another status DIGEST is left as it was.
 *
 * Refusals: C3; S3, S5, S6, S11, S12. */
#define RLIBREG_DIGEST_BYTES 32 /* length of a digest */
uint32_t rlibreg_digest(const uint8_t *disk, size_t disk_length, const char *name,
                        size_t name_length, uint8_t digest[RLIBREG_DIGEST_BYTES], char *text,
                        size_t text_room, rlibreg_answer *answer);

/* Returns information on the registry as a whole. No library's file is read.
 *
 * With the status 0, INFORMATION is written. With another status it is left as it was.
 *
 * If a file of at most `largest` bytes is installed under a new name, none of S7 (Full), S8
 * (Fragmented), S9 (TooMany) and S10 (GenerationEnd) refuses it. If the file is longer, one of them
 * does, or C1 (the file is no library). For every 64 libraries or part of 64, one of the unused
 * sectors is kept back for catalogues. The other unused sectors are free, as S7 counts them.
 *
 * Refusals: S3, S5, S6, S11, S12. */
uint32_t rlibreg_info(const uint8_t *disk, size_t disk_length, rlibreg_information *information,
                      char *text, size_t text_room, rlibreg_answer *answer);

/* Tests each library's file.
 *
 * With the status 0, FINDINGS has a finding on each of the answer's `count` libraries, in the order
 * of their installation. NAMES has their names in a row, each followed by a byte 0, `bytes` bytes
 * in all. The status is 0 whatever is found: a damaged library doesn't stop the test of the others.
 * RLIBREG_SOUND means that an installation would accept the file under this name, whether these
 * bytes were installed or not.
 *
 * Each file is read once, and one file at a time is in memory. If a buffer is too small, no file is
 * read. 2,048 findings and 493,568 bytes are always enough.
 *
 * Refusals: S3, S5, S6, S11, S12. */
uint32_t rlibreg_check(const uint8_t *disk, size_t disk_length, rlibreg_finding *findings,
                       size_t findings_room, char *names, size_t names_room, char *text,
                       size_t text_room, rlibreg_answer *answer);

/* PLANS. With the status 0, PLAN has the answer's `count` steps, `bytes` bytes in all. A step is
 * one of these:
 *
 * - a write: the number of a sector, in four bytes, little endian, and the 512 bytes to write
 *   there;
 * - a sync: RLIBREG_SYNC in four bytes. It brings everything that was written before to the medium.
 *
 * Carry the steps out in their order. After a sync, begin no step before the sync has succeeded.
 * Between two syncs, neighbouring sectors may go in one write. A plan may write a sector more than
 * once between two syncs, as the plan of an update does that installs a library and removes it
 * again. The last of these writes counts, so don't sort them. If a write or a sync fails, stop.
 * Then sync the disk and read it again to know what it holds.
 *
 * A power cut at any moment leaves the registry from before the change or the one after it, and
 * nothing else. After the last step, which is a sync, it leaves only the one after. This holds if
 * the disk is the one that the call was given, and nobody wrote to it in between.
 *
 * A plan takes 516 bytes for each sector and 4 for each sync. An installation or a replacement
 * writes the sectors of the file's bytes, and has at most 37 steps besides. Every other plan,
 * except that of an update, has at most 37 steps.
 *
 * With another status there is nothing to carry out. */
#define RLIBREG_SYNC 0xffffffffu

/* Plans to make an empty registry, on a disk on which none was ever made. If a root sector looks
 * like that of a registry, the status is S4 (AlreadyFormatted). Refusals: S4, S6, S11. */
uint32_t rlibreg_plan_format(const uint8_t *disk, size_t disk_length, uint8_t *plan,
                             size_t plan_room, char *text, size_t text_room,
                             rlibreg_answer *answer);

/* Plans to turn a registry of version 1 into one of version 2, with the same libraries and
 * preloads. On a disk of version 2 the plan writes nothing. Refusals: S3, S5, S6, S7, S10, S11. */
uint32_t rlibreg_plan_upgrade(const uint8_t *disk, size_t disk_length, uint8_t *plan,
                              size_t plan_room, char *text, size_t text_room,
                              rlibreg_answer *answer);

/* Plans to install a library under its SONAME, after the others. FILE has the FILE_LENGTH bytes of
 * the library's file. Refusals: C1, C2, S9, S10, S7, S8; S3, S5, S6, S11, S12. */
uint32_t rlibreg_plan_install(const uint8_t *disk, size_t disk_length, const uint8_t *file,
                              size_t file_length, uint8_t *plan, size_t plan_room, char *text,
                              size_t text_room, rlibreg_answer *answer);

/* Plans to put a library in the place of the one that has its SONAME. FILE has the FILE_LENGTH
 * bytes of the new file. The old file's sectors become unused only after the change, so there has
 * to be room for both files. Refusals: C1, C3, S10, S7, S8; S3, S5, S6, S11, S12. */
uint32_t rlibreg_plan_replace(const uint8_t *disk, size_t disk_length, const uint8_t *file,
                              size_t file_length, uint8_t *plan, size_t plan_room, char *text,
                              size_t text_room, rlibreg_answer *answer);

/* Plans to remove a library. NAME has the NAME_LENGTH bytes of the library's name, without a byte 0
 * after them. The call doesn't test whether programs need the library. Refusals: C3, C4, S10; S3,
 * S5, S6, S11, S12. */
uint32_t rlibreg_plan_remove(const uint8_t *disk, size_t disk_length, const char *name,
                             size_t name_length, uint8_t *plan, size_t plan_room, char *text,
                             size_t text_room, rlibreg_answer *answer);

/* Plans to set the preloads, which every program is bound with. NAMES has NAMES_LENGTH bytes: the
 * names of the preloads in their order, each followed by a byte 0. If the length is 0, there are no
 * preloads. If the last byte isn't 0, the status is RLIBREG_BAD_ARGUMENT. Refusals: C6, C5, C3,
 * S10; S3, S5, S6, S11, S12. */
uint32_t rlibreg_plan_preload(const uint8_t *disk, size_t disk_length, const char *names,
                              size_t names_length, uint8_t *plan, size_t plan_room, char *text,
                              size_t text_room, rlibreg_answer *answer);

/* Plans an update: several changes in one plan, which makes all of them or none. CHANGES has
 * CHANGES_COUNT changes, which are planned in their order. BYTES has the BYTES_LENGTH bytes of all
 * of them: the bytes of a change are at the change's place in BYTES, in the same form as for the
 * plan of a single change. Each change is tested against the state to which the changes before it
 * lead.
 *
 * The update is one change of the registry. Without changes the plan writes nothing. The sectors of
 * a library that is installed now become unused only after the update, so there has to be room for
 * its old and its new file. The sectors of a library that the update installs and removes again are
 * free for the changes that follow.
 *
 * If a change is refused, the answer's `count` is the number of changes before it. The status is
 * RLIBREG_BAD_ARGUMENT, before any change is tested, if a kind is none of the four, if a place
 * isn't inside BYTES, or if names don't end with a byte 0.
 *
 * Refusals: those of the changes, C1 to C6, S7 to S10; S3, S5, S6, S11, S12. */
uint32_t rlibreg_plan_update(const uint8_t *disk, size_t disk_length,
                             const rlibreg_change *changes, size_t changes_count,
                             const uint8_t *bytes, size_t bytes_length, uint8_t *plan,
                             size_t plan_room, char *text, size_t text_room,
                             rlibreg_answer *answer);

/* ---- Layer 2: files
 *
 * A struct rlibreg is made by rlibreg_create, gets its file with rlibreg_open or rlibreg_format,
 * and is freed by rlibreg_close. It belongs to the caller that made it. From the opening until
 * rlibreg_close it holds the lock of its file, and a map of it. So keep it open for as long as the
 * calls take, and no longer.
 *
 * A child of fork can only close a struct whose file its parent opened. Every other call of such a
 * struct returns RLIBREG_BAD_ARGUMENT in the child.
 *
 * After a change has failed with S1 (Device), the struct answers every call with S2 (Reopen). Close
 * it, and open the file again: the file then holds the registry from before the change or the one
 * after it. It is safe to ask for the same change again. */

typedef struct rlibreg rlibreg;

/* Makes a struct without a file. Returns it, or null if there is no memory. The caller frees it
 * with rlibreg_close. As long as it has no file, every call except rlibreg_open and rlibreg_format
 * returns S6 (BadGeometry), and a change returns RLIBREG_READ_ONLY. */
rlibreg *rlibreg_create(void);

/* Closes the file, releases its lock, and frees the struct. Does nothing if REGISTRY is null. The
 * texts and answers that the struct returned are freed too; images, listings and findings stay. In
 * a child of fork the parent keeps the lock. */
void rlibreg_close(rlibreg *registry);

/* Returns the text of the last call of this struct. It is the line or the reply that the program
 * `rlibreg` prints in the same case, ended by a byte 0. The text belongs to the struct, and stays
 * until its next call. */
const char *rlibreg_text(const rlibreg *registry);

/* Returns the answer of the last call of this struct. It belongs to the struct, and stays until its
 * next call. */
const rlibreg_answer *rlibreg_last_answer(const rlibreg *registry);

/* Returns errno as the last call of this struct left it. If that call returned neither
 * RLIBREG_SYSTEM nor S1 (Device), the result is 0. */
int rlibreg_errno(const rlibreg *registry);

/* How a file is opened. Without these flags the file is opened for reading only, with a lock that
 * other readers share, and the call doesn't wait for the lock. A sum of the flags changes that. */
enum {
    RLIBREG_READ_WRITE = 1, /* for changes too: the lock is exclusive */
    RLIBREG_WAIT = 2        /* if the file is locked, wait (rlibreg_set_wait_limit) */
};

/* Sets how long later calls with the flag RLIBREG_WAIT wait. Each waits up to MILLISECONDS, by
 * CLOCK_MONOTONIC, whatever signals come, and then returns RLIBREG_LOCKED. If MILLISECONDS is less
 * than 0, a call waits without end, but a signal whose handler doesn't have SA_RESTART
 * (sigaction(2)) ends the wait. A new struct has this last setting. A call waits for other
 * processes, and for other threads of this one. */
void rlibreg_set_wait_limit(rlibreg *registry, int milliseconds);

/* Returns the number of a standard stream that may be written and is the file of PATH. The number
 * is 2, 1 or 0. If there is no such stream, the result is -1. A stream that isn't open is opened,
 * as STANDARD STREAMS says. If the result is 2, the caller can't report it on standard error. */
int rlibreg_stream_of(const char *path);

/* Opens the file of a registry, locks it, syncs it, and maps it as the medium has it. PATH names a
 * regular file or a block device. FLAGS is 0 or a sum of RLIBREG_READ_WRITE and RLIBREG_WAIT. The
 * call doesn't test what the file holds: the calls after it do.
 *
 * The call returns 0 if the file is open, and otherwise one of these:
 *
 * - RLIBREG_LOCKED: another struct, of this process or another, has locked the file, and either
 *   FLAGS lacks RLIBREG_WAIT or the wait has reached its limit. With RLIBREG_WAIT the call returns
 *   this at once if this thread would wait for itself. It would, if it was the last thread to use
 *   the struct that has the lock, or if the last thread to use that struct waits for this thread.
 *   The call also returns this if the path named another file at each of 16 tries.
 * - RLIBREG_SYSTEM: a call of the system failed, and errno has the reason. EINTR: a signal ended a
 *   wait without limit. EINVAL: the path is neither a regular file nor a block device. EBUSY: a
 *   block device is in use. ETXTBSY: the file is a standard stream that may be written.
 * - RLIBREG_BAD_ARGUMENT: the struct already has a file. */
uint32_t rlibreg_open(rlibreg *registry, const char *path, unsigned flags);

/* Makes an empty registry of SECTORS sectors of 512 bytes, and leaves it open for changes. If PATH
 * names a file or a block device that exists, its length has to be SECTORS * 512 bytes; otherwise
 * the call returns S6 (BadGeometry). If it holds a registry, the call returns S4
 * (AlreadyFormatted). FLAGS is 0 or RLIBREG_WAIT, which also waits for another process that is
 * making the disk.
 *
 * If there is no file, it is made under another name in the same folder: `.NAME.rlibreg-new`, or
 * `.rlibreg-new` if that has more than 255 bytes. Once all of it is on the medium, it gets its own
 * name by a link, which fails if something has this name. So a process that is killed, and a power
 * cut, leave no disk or a whole one. If a regular file has the other name and nobody has locked it,
 * it was left in this way: the call removes the name and doesn't write the file. A new file is
 * sparse. If the space for it turns out to be missing later, a change returns S1 (Device).
 *
 * After a refusal or a failure the struct has no file. After every refusal except S1, nothing was
 * made, and a file that existed is as it was.
 *
 * The call returns 0 if the registry was made, and otherwise one of these:
 *
 * - RLIBREG_BAD_ARGUMENT: SECTORS isn't 8 to 4,194,304, or the struct already has a file.
 * - RLIBREG_LOCKED: the disk or the file with the other name is locked.
 * - RLIBREG_SYSTEM: something that comes before the plan failed. errno is EINVAL if the other name
 *   isn't that of a regular file.
 * - All other statuses are those of rlibreg_open and rlibreg_plan_format.
 *
 * Refusals: S1 if a write or a sync of the plan fails, if the sync of the folder fails after the
 * file has its name, or if the other name can't be removed; errno has the reason. On a file that
 * existed, a registry may or may not have been made. A new file doesn't exist, or is whole if it
 * already has its name. On a file system without a journal (vfat, exfat, ext2), mount the file
 * system again before you use the path again. Otherwise the path may have a name that a power cut
 * takes away: then neither S4 nor a completed change can be relied on. */
uint32_t rlibreg_format(rlibreg *registry, const char *path, uint32_t sectors, unsigned flags);

/* ---- Layer 2: changes
 *
 * Each of these calls makes one change of the registry. When it returns 0, the change was planned,
 * carried out and synced. A refusal of the plan leaves everything as it was. S1 (Device) means that
 * a write or a sync failed, or that the path no longer names the file (LOCKS); errno has the
 * reason. The change may or may not have been made, and the struct then answers S2 (Reopen).
 *
 * RLIBREG_READ_ONLY means that the file wasn't opened with RLIBREG_READ_WRITE. RLIBREG_SYSTEM with
 * ETXTBSY means that the file has become a standard stream that may be written; nothing was done.
 * RLIBREG_BAD_ARGUMENT means that the parent of this process opened the file.
 *
 * Memory whose address the caller passes stays the caller's. */

/* Turns a registry of version 1 into one of version 2. Refusals: those of the plan; S1, S2. */
uint32_t rlibreg_upgrade(rlibreg *registry);

/* Installs a library under its SONAME, after the others. FILE has the LENGTH bytes of the library's
 * file. Refusals: those of the plan; S1, S2. */
uint32_t rlibreg_install(rlibreg *registry, const void *file, size_t length);

/* Puts a library in the place of the one that has its SONAME. FILE has the LENGTH bytes of the new
 * file. Refusals: those of the plan; S1, S2. */
uint32_t rlibreg_replace(rlibreg *registry, const void *file, size_t length);

/* Removes a library. NAME is the library's name, ended by a byte 0. Refusals: those of the plan;
 * S1, S2. */
uint32_t rlibreg_remove(rlibreg *registry, const char *name);

/* Sets the preloads. NAMES has the COUNT names in their order, each ended by a byte 0. NAMES may be
 * null if COUNT is 0. Refusals: those of the plan; S1, S2. */
uint32_t rlibreg_preload(rlibreg *registry, const char *const *names, size_t count);

/* Makes an update, as rlibreg_plan_update plans it. CHANGES has COUNT changes, which are one change
 * of the registry: all of them are made or none. BYTES has the LENGTH bytes of all changes. CHANGES
 * may be null if COUNT is 0, and BYTES may be null if LENGTH is 0. If a change is refused,
 * rlibreg_last_answer has in `count` the number of changes before it. Refusals: those of the plan;
 * S1, S2. */
uint32_t rlibreg_update(rlibreg *registry, const rlibreg_change *changes, size_t count,
                        const void *bytes, size_t length);

/* ---- Layer 2: reading
 *
 * These calls change nothing, so the file may be open for reading only. They return S1 (Device) if
 * the file's length has changed, and S2 (Reopen) after an S1 of this struct. RLIBREG_BAD_ARGUMENT
 * means that the parent of this process opened the file. */

/* Lists the libraries and the preloads, as rlibreg_list does. LISTING is written in every case. The
 * caller frees its buffers with rlibreg_listing_free. Other refusals: S1, S2. */
typedef struct rlibreg_listing {
    uint64_t generation; /* number of changes since the registry was formatted */
    size_t libraries;    /* number of libraries: entries 0 to libraries - 1 */
    size_t preloads;     /* number of preloads: the entries after those */
    rlibreg_entry *entries;
    char *names; /* the name of an entry is names + entry.name, ended by a byte 0 */
} rlibreg_listing;

uint32_t rlibreg_get_listing(rlibreg *registry, rlibreg_listing *listing);

/* Frees the buffers of a listing, and empties the listing. The call may be repeated for the same
 * listing. */
void rlibreg_listing_free(rlibreg_listing *listing);

/* Returns a library's bytes, as rlibreg_file does. NAME ends with a byte 0. With the status 0,
 * *BYTES has *LENGTH bytes, which the caller frees with free. With another status *LENGTH is 0, and
 * *BYTES is null. Both are written in every case. Other refusals: S1, S2. */
uint32_t rlibreg_get_file(rlibreg *registry, const char *name, void **bytes, size_t *length);

/* Returns the SHA-256 of a library's bytes, as rlibreg_digest does. NAME ends with a byte 0. If the
 * status isn't 0, DIGEST is left as it was. Other refusals: S1, S2. */
uint32_t rlibreg_get_digest(rlibreg *registry, const char *name,
                            uint8_t digest[RLIBREG_DIGEST_BYTES]);

/* Returns information on the registry as a whole, as rlibreg_info does. If the status isn't 0,
 * INFORMATION is left as it was. Other refusals: S1, S2. */
uint32_t rlibreg_get_info(rlibreg *registry, rlibreg_information *information);

/* Tests each library's file, as rlibreg_check does. FINDINGS is written in every case. The caller
 * frees its buffers with rlibreg_findings_free. Other refusals: S1, S2. */
typedef struct rlibreg_findings {
    size_t count; /* number of libraries */
    rlibreg_finding *findings;
    char *names; /* the name of a library is names + finding.name, ended by a byte 0 */
} rlibreg_findings;

uint32_t rlibreg_check_libraries(rlibreg *registry, rlibreg_findings *findings);

/* Frees the buffers of findings, and empties the findings. The call may be repeated for the same
 * findings. */
void rlibreg_findings_free(rlibreg_findings *findings);

/* Binds a program, as rlibreg_bind does. PROGRAM has the LENGTH bytes of the program's file, and
 * BASE is the address. IMAGE is written in every case. The caller frees its buffers with
 * rlibreg_image_free. Other refusals: S1, S2. */
typedef struct rlibreg_image {
    size_t count;        /* number of segments */
    size_t object_count; /* number of objects */
    rlibreg_object *objects;
    rlibreg_segment *segments;
    uint8_t *bytes; /* the name of an object is bytes + object.name, ended by a byte 0 */
} rlibreg_image;

uint32_t rlibreg_bind_program(rlibreg *registry, const void *program, size_t length, uint64_t base,
                              rlibreg_image *image);

/* Frees the buffers of an image, and empties the image. The call may be repeated for the same
 * image. */
void rlibreg_image_free(rlibreg_image *image);

/* Binds a program against the state after an update, and writes nothing. The result is the image
 * that rlibreg_bind_program would return after an update of these changes. So the caller knows
 * before the update whether the program can be bound afterwards. PROGRAM has the PROGRAM_LENGTH
 * bytes of the program's file, and BASE is the address. CHANGES, COUNT, BYTES and LENGTH are those
 * of rlibreg_update. The file may be open for reading only. IMAGE is written in every case, and is
 * freed with rlibreg_image_free.
 *
 * If a change is refused, the call returns its refusal, and rlibreg_last_answer has in `count` the
 * number of changes before it. If the bind is refused, `count` is 0.
 *
 * The call maps the file once more, privately, and carries the plan out in that memory. It
 * allocates memory for the plan, for the pages that are written, and for the image. It needs memory
 * for the whole disk if the process locks its memory (mlockall), or if the system limits the memory
 * of the process (RLIMIT_AS, RLIMIT_DATA, vm.overcommit_memory 2). If that memory is refused, the
 * call returns S11 (OutOfMemory), and the update itself may still succeed.
 *
 * Refusals: B1 to B5; C1 to C6, S7 to S10; S1, S2, S3, S5, S6, S11, S12. */
uint32_t rlibreg_preview_bind(rlibreg *registry, const rlibreg_change *changes, size_t count,
                              const void *bytes, size_t length, const void *program,
                              size_t program_length, uint64_t base, rlibreg_image *image);

/* Lists what symbols are bound to, as rlibreg_bindings does. PROGRAM has the LENGTH bytes of the
 * program's file, and BASE is the address. With the statuses 0, B3 and B5, *BINDINGS is a text of
 * *BYTES bytes, followed by a byte 0, which the caller frees with free. With every other status
 * *BYTES is 0, and *BINDINGS is null. Both are written in every case. Other refusals: S1, S2. */
uint32_t rlibreg_get_bindings(rlibreg *registry, const void *program, size_t length, uint64_t base,
                              char **bindings, size_t *bytes);

/* Makes a static executable file of a bound program, as rlibreg_executable does. PROGRAM has the
 * LENGTH bytes of the program's file, and BASE is the address. With the status 0, *FILE has *BYTES
 * bytes, which the caller frees with free. With another status *BYTES is 0, and *FILE is null. Both
 * are written in every case. Other refusals: S1, S2. */
uint32_t rlibreg_get_executable(rlibreg *registry, const void *program, size_t length,
                                uint64_t base, void **file, size_t *bytes);

#ifdef __cplusplus
}
#endif
#endif

/* rlibreg-run [-x] [-b BASE] [-c FOLDER [-v]] [-w SECONDS] DISK PROGRAM [WORD].. starts a program
 * with the libraries of a registry.
 *
 * The loader binds PROGRAM against the registry on DISK, and maps the image's segments at their
 * addresses with their permissions. Then it calls the initializers of the libraries, and jumps to
 * PROGRAM's entry as the kernel does. The stack has the arguments, PROGRAM first, the environment
 * and the auxiliary vector. rdx has the address of the function that calls the finalizers (System V
 * ABI, AMD64 supplement, section 3.4.1). With -c the loader takes the image that an earlier start
 * has left in FOLDER. It waits while another process has DISK locked for changes, and closes DISK
 * before it calls anything. docs/C.md is the manual. */
#define _GNU_SOURCE
#include "rlibreg_disk_file.h"
#include "rlibreg_run_kept.h"
#include "rlibreg_stack.h"

#include <errno.h>
#include <signal.h>
#include <stdio.h>
#include <stdlib.h>
#include <string.h>
#include <sys/auxv.h>
#include <unistd.h>

#ifdef __GLIBC__
#include <malloc.h>
#endif

/* Number of bytes of stack. The loader needs some 56 KiB, and more for its arguments. */
enum { STACK = 128 << 10 };

void fail(const char *what) {
    give_up(FAILED, what, strerror(errno));
}

void give_up(int status, const char *what, const char *why) {
    fprintf(stderr, "rlibreg-run: %s: %s\n", what, why);
    exit(status);
}

#define USAGE "rlibreg-run [-x] [-b BASE] [-c FOLDER [-v]] [-w SECONDS] DISK PROGRAM [WORD]..\n"

static _Noreturn void bad_words(void) {
    fputs("rlibreg-run: usage: " USAGE, stderr);
    exit(BAD_WORDS);
}

static const char help[] =
    "usage: " USAGE
    "Starts PROGRAM with the libraries of the registry on DISK.\n"
    "\n"
    "  -x           lets memory be writable and executable at once\n"
    "  -b BASE      binds PROGRAM at this address\n"
    "  -c FOLDER    keeps the image in FOLDER, and takes it from there\n"
    "  -v           reports what is done with images\n"
    "  -w SECONDS   waits this long for a locked DISK; without it, or with `forever`, without an end\n"
    "  --help, --version\n"
    "               print this text, or the version\n"
    "\n"
    "Exit status: that of PROGRAM; 125 refused, 126 a file or memory failed, 127 bad arguments.\n"
    "The manual is rlibreg-run(1).\n";

/* If the word is --help or --version, answers it and ends the process. */
static void answer(const char *word) {
    uint32_t version = rlibreg_version();
    if (!strcmp(word, "--help"))
        fputs(help, stdout);
    else if (!strcmp(word, "--version"))
        printf("rlibreg-run %u.%u.%u\n", version / 10000, version / 100 % 100, version % 100);
    else
        return;
    exit(fflush(stdout) ? FAILED : 0);
}

/* Reads the arguments. Returns the index of DISK. If the program's output would be written into
 * DISK, ends the process, and prints no message that would be written into DISK. */
static int read_words(struct program *it, struct keeping *keeping, int argc, char **argv) {
    int next, are_good = read_options(it, keeping, argc, argv, &next);
    int stream = next < argc ? rlibreg_stream_of(argv[next]) : -1;
    if (stream == STDERR_FILENO) exit(are_good ? FAILED : BAD_WORDS);
    if (!are_good) bad_words();
    if (keeping->path && getauxval(AT_SECURE))
        give_up(FAILED, "-c", "not with more rights than the user's");
    errno = ETXTBSY;
    if (stream >= 0) fail(argv[next]);
    return next;
}

/* Prints a message about images to standard error: `what` or, if it is null, the text of
 * `error`. */
static void say(const struct keeping *it, const char *what, int error) {
    fprintf(stderr, "rlibreg-run: %s: %s\n", it->path, what ? what : strerror(error));
}

/* Handles SIGBUS, which the system sends if a sector of the mapped disk can't be read, or if the
 * file was shortened. */
static void cannot_read(int signal) {
    static const char what[] = "rlibreg-run: the disk can't be read\n";
    (void)signal;
    if (write(STDERR_FILENO, what, sizeof what - 1) < 0) errno = 0; /* if this fails, there is no
                                                                     * other way to report it */
    _exit(FAILED);
}

/* LONGEST is the number of seconds of the longest wait that one call can be asked for. */
enum { SECOND = 1000, LONGEST = 1000000 };

/* Opens the disk, and waits up to `seconds` seconds for its lock. */
static uint32_t open_within(rlibreg *registry, const char *disk, uint32_t seconds) {
    rlibreg_set_wait_limit(registry, (int)seconds * SECOND);
    return rlibreg_open(registry, disk, RLIBREG_WAIT);
}

/* Opens the disk, and waits for its lock as long as the user wants. If that takes more than a second,
 * says so once. */
static uint32_t open_disk(const struct program *it, rlibreg *registry, const char *disk) {
    uint32_t left = it->has_wait ? it->wait : LONGEST, now = left > 0;
    uint32_t status = open_within(registry, disk, now);
    if (status != RLIBREG_LOCKED || left == now) return status;
    fprintf(stderr, "rlibreg-run: %s: another process has locked it: waiting\n", disk);
    if (!it->has_wait) {
        rlibreg_set_wait_limit(registry, -1);
        return rlibreg_open(registry, disk, RLIBREG_WAIT);
    }
    for (left -= now; left && status == RLIBREG_LOCKED; left -= now) {
        now = left < LONGEST ? left : LONGEST;
        status = open_within(registry, disk, now);
    }
    return status;
}

/* Opens the disk, binds the program, maps it, and closes the disk. */
static void load(struct program *it, struct keeping *keeping, const char *disk) {
    struct sigaction usual, ours = { .sa_handler = cannot_read };
    rlibreg *registry = rlibreg_create();
    if (!registry) fail("memory");
    uint32_t status = open_disk(it, registry, disk);
    if (status == RLIBREG_SYSTEM) fail(disk);
    if (status) give_up(FAILED, disk, rlibreg_status_name(status));
    look_at_disk(keeping, it, disk, rlibreg_descriptor(registry));
    sigaction(SIGBUS, &ours, &usual);
    map_program(it, registry, disk);
    look_at_image(keeping, it, rlibreg_descriptor(registry));
    sigaction(SIGBUS, &usual, NULL);
    rlibreg_close(registry);
}

/* Frees the bytes of an image, except for the names of the libraries, which are at the end. */
static void let_bytes_go(rlibreg_image *it) {
    const rlibreg_object *first = &it->objects[1], *last = &it->objects[it->object_count - 1];
    if (it->object_count > 1) {
        uint64_t from = first->name, length = last->name + last->name_length + 1 - from;
        memmove(it->bytes, it->bytes + from, length);
        for (size_t i = 1; i < it->object_count; i++) it->objects[i].name -= from;
        uint8_t *names = realloc(it->bytes, length);
        if (names) it->bytes = names;
    } else {
        free(it->bytes);
        it->bytes = NULL;
    }
    free(it->segments);
    it->segments = NULL;
}

/* Binds the program. If the user has requested it (-c), also keeps the image, before any code of
 * the program runs. */
static void bind_program(struct program *it, struct keeping *keeping, const char *disk) {
    read_program(it);
    load(it, keeping, disk);
    find_calls(it);
    keep(keeping, it, disk);
    protect_program(it);
    name_kept(keeping);
    free(it->bytes);
    let_bytes_go(&it->image);
#ifdef __GLIBC__
    malloc_trim(0); /* memory that isn't returned to the system here stays with the program */
#endif
}

/* Returns the size in bytes of the pointers to the arguments and the environment, which the program
 * gets as a copy. */
static size_t pointers_in(char **words, char **environment) {
    size_t count = 0;
    while (*words++) count++;
    while (*environment++) count++;
    return count * sizeof *words;
}

int main(int argc, char **argv, char **environment) {
    struct program program = { 0 };
    struct keeping keeping = { .folder = -1, .user = geteuid(), .say = say };
    if (argc == 2) answer(argv[1]);
    int disk = read_words(&program, &keeping, argc, argv), is_taken = 0;
    char **words = argv + disk + 1;
    const struct refused_stack refused = {
        FAILED, STDERR_FILENO, "rlibreg-run: the stack: Cannot allocate memory\n"
    };
    rlibreg_grow_stack(STACK + pointers_in(words, environment), refused);
    program.path = words[0];
    open_program(&program);
    if (keeping.path) is_taken = take_kept(&keeping, &program, argv[disk]);
    if (!is_taken) bind_program(&program, &keeping, argv[disk]);
    close_folder(&keeping);
    start(&program, words, environment, argv + argc + 1);
}

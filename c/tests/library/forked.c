/* forked LIBRARY PROGRAM NAME forks while disks are open, in the folder where it is run. LIBRARY
 * has the SONAME NAME, and PROGRAM needs it. */
#define _GNU_SOURCE
#include "watched.h"

#include <sched.h>
#include <signal.h>
#include <sys/syscall.h>
#include <sys/wait.h>
#include <time.h>
#include <unistd.h>

static char library[1 << 20], program[1 << 20];
static size_t library_length, program_length;
static const char *name;

static size_t read_file(char *bytes, size_t room, const char *path) {
    FILE *file = fopen(path, "rb");
    size_t length = file ? fread(bytes, 1, room, file) : 0;
    WANT(length && length < room);
    fclose(file);
    return length;
}

static rlibreg *opened(unsigned flags) {
    rlibreg *it = rlibreg_create();
    WANT(it && !rlibreg_open(it, "disk", flags));
    return it;
}

/* Makes a child that calls `does` with a struct of its parent, and then waits until it is killed.
 * Returns the child's process number. */
static pid_t child_that(void (*does)(rlibreg *), rlibreg *it) {
    int done[2];
    char byte;
    WANT(!pipe(done));
    fflush(stdout);
    pid_t child = fork();
    WANT(child >= 0);
    if (!child) {
        alarm(60);
        does(it);
        WANT(write(done[1], "", 1) == 1);
        for (;;) pause();
    }
    close(done[1]);
    WANT(read(done[0], &byte, 1) == 1); /* not the end of the pipe, which shows that the child
                                         * has failed */
    close(done[0]);
    return child;
}

static void end(pid_t child) {
    int status;
    WANT(!kill(child, SIGKILL) && waitpid(child, &status, 0) == child);
}

static void call_all(rlibreg *it) {
    char *text;
    rlibreg_listing listing;
    rlibreg_image image;
    rlibreg_information information;
    rlibreg_findings findings;
    uint8_t digest[RLIBREG_DIGEST_BYTES] = { 0 };
    void *bytes;
    size_t length;
    const uint32_t bad = RLIBREG_BAD_ARGUMENT;
    const rlibreg_change install = { RLIBREG_INSTALL, 0, library_length };
    WANT(rlibreg_get_listing(it, &listing) == bad && !listing.entries && !listing.names);
    WANT(rlibreg_bind_program(it, program, program_length, 0, &image) == bad && !image.bytes);
    WANT(rlibreg_get_file(it, name, &bytes, &length) == bad && !bytes && !length);
    WANT(rlibreg_get_digest(it, name, digest) == bad && !digest[0]);
    WANT(rlibreg_get_info(it, &information) == bad);
    WANT(rlibreg_check_libraries(it, &findings) == bad && !findings.findings && !findings.names);
    WANT(rlibreg_get_bindings(it, program, program_length, 0, &text, &length) == bad && !text);
    WANT(rlibreg_get_executable(it, program, program_length, 0, &bytes, &length) == bad && !bytes);
    WANT(rlibreg_install(it, library, library_length) == bad);
    WANT(rlibreg_replace(it, library, library_length) == bad);
    WANT(rlibreg_remove(it, name) == bad && rlibreg_preload(it, &name, 1) == bad);
    WANT(rlibreg_update(it, &install, 1, library, library_length) == bad);
    WANT(rlibreg_preview_bind(it, &install, 1, library, library_length, program, program_length,
                              0, &image) == bad && !image.bytes);
    WANT(rlibreg_upgrade(it) == bad && rlibreg_format(it, "new", 64, 0) == bad);
    WANT(rlibreg_open(it, "disk", 0) == bad);
    WANT(rlibreg_last_answer(it)->status == bad && !rlibreg_text(it)[0]);
}

/* Closes the struct in a child, and checks that this affects only the child. Then the child can
 * open a disk like any process. */
static void close_it(rlibreg *it) {
    rlibreg_close(it);
    it = rlibreg_create();
    WANT(rlibreg_open(it, "disk", RLIBREG_READ_WRITE) == RLIBREG_LOCKED);
    WANT(!rlibreg_format(it, "new", 64, RLIBREG_WAIT));
    rlibreg_close(it);
    WANT(!unlink("new"));
}

static void only_has_it(rlibreg *it) {
    (void)it;
}

/* ---- Children of children, also with their parent's process number */

enum { GENERATIONS = 4 };

/* How children are made: by fork, which runs handlers, or by the system call, which runs none. With
 * CLONE_NEWPID each child is process 1 of a new process namespace. */
struct way {
    int is_call, flags;
};

/* Makes a child. Returns -1 if that isn't permitted. */
static pid_t child_of(struct way way) {
    fflush(stdout);
    if (way.is_call) return (pid_t)syscall(SYS_clone, (long)way.flags | SIGCHLD);
    return unshare(way.flags) ? -1 : fork();
}

static void want_success(pid_t child) {
    int status;
    WANT(child > 0 && waitpid(child, &status, 0) == child);
    WANT(WIFEXITED(status) && !WEXITSTATUS(status));
}

static void disk_of(int generation, char *path) {
    snprintf(path, 16, "disk-%u", (unsigned)generation % 10);
}

/* Checks that a child's wait for a disk that its parent has locked ends at its limit, and not at
 * once. */
static void wait_for_parent(const char *path) {
    struct timespec begun, ended;
    rlibreg *it = rlibreg_create();
    rlibreg_set_wait_limit(it, 50);
    WANT(!clock_gettime(CLOCK_MONOTONIC, &begun));
    WANT(rlibreg_open(it, path, RLIBREG_READ_WRITE | RLIBREG_WAIT) == RLIBREG_LOCKED);
    WANT(!clock_gettime(CLOCK_MONOTONIC, &ended));
    WANT((ended.tv_sec - begun.tv_sec) * 1000 + (ended.tv_nsec - begun.tv_nsec) / 1000000 >= 49);
    rlibreg_close(it);
}

static void try_generations(struct way way, rlibreg **opened, int generation);

/* Opens a disk, and makes the next generation, which finds this disk open. */
static void open_own(struct way way, rlibreg **opened, int generation) {
    char path[16];
    disk_of(generation, path);
    opened[generation] = rlibreg_create();
    WANT(!rlibreg_format(opened[generation], path, 64, 0));
    pid_t child = child_of(way);
    if (!child) {
        try_generations(way, opened, generation + 1);
        _exit(0);
    }
    want_success(child);
    WANT(is_held_alone(path) && !rlibreg_install(opened[generation], library, library_length));
    rlibreg_close(opened[generation]);
    WANT(!is_held(path) && !unlink(path));
}

/* Handles a signal: without a handler, the signal doesn't end process 1. */
static void end_late(int number) {
    (void)number;
    _exit(1);
}

/* Checks that each generation can only close the disks that the generations before it opened, and
 * that this releases no lock. */
static void try_generations(struct way way, rlibreg **opened, int generation) {
    char path[16];
    WANT(!way.flags || getpid() == 1);
    WANT(signal(SIGALRM, end_late) != SIG_ERR);
    alarm(60);
    for (int i = 0; i < generation; i++) call_all(opened[i]);
    if (generation) disk_of(generation - 1, path), wait_for_parent(path);
    if (generation < GENERATIONS) open_own(way, opened, generation);
    for (int i = 0; i < generation; i++) {
        rlibreg_close(opened[i]);
        disk_of(i, path);
        WANT(is_held_alone(path));
    }
}

/* Tries generations of children in a process that has opened no disk before. Returns 0 if such
 * children can't be made. */
static int in_generations(struct way way, int wipes_nothing) {
    rlibreg *opened[GENERATIONS];
    pid_t child = child_of((struct way){ 1, way.flags });
    if (child < 0) child = child_of((struct way){ 1, way.flags | CLONE_NEWUSER });
    if (child < 0) return 0;
    if (!child) {
        watch();
        watched.wipes_nothing = wipes_nothing;
        try_generations(way, opened, 0);
        _exit(0);
    }
    want_success(child);
    return 1;
}

/* Tries generations with each way to notice a child: a handler and the kernel notice each fork, the
 * kernel notices each call of clone, and the process number distinguishes most children. */
static void try_all_generations(void) {
    const struct way by_fork = { 0, CLONE_NEWPID }, by_call = { 1, CLONE_NEWPID };
    WANT(in_generations((struct way){ 1, 0 }, 1) && in_generations((struct way){ 0, 0 }, 0));
    if (in_generations(by_fork, 0))
        WANT(in_generations(by_fork, 1) && in_generations(by_call, 0));
    else
        printf("skipped: children with their parent's process number (%s)\n", strerror(errno));
}

/* Checks that no disk is opened while there is no memory to watch forks, and that a disk is opened
 * later, when there is memory. */
static void try_unwatched(void) {
    fflush(stdout);
    pid_t child = fork();
    if (!child) {
        rlibreg *it = rlibreg_create();
        watch();
        watched.watches_no_forks = 1;
        WANT(rlibreg_format(it, "new", 64, 0) == RLIBREG_SYSTEM && rlibreg_errno(it) == ENOMEM);
        WANT(!*names_here());
        unwatch();
        WANT(!rlibreg_format(it, "new", 64, 0) && is_held_alone("new"));
        rlibreg_close(it);
        WANT(!unlink("new"));
        _exit(0);
    }
    want_success(child);
}

int main(int argc, char **argv) {
    WANT(argc == 4);
    library_length = read_file(library, sizeof library, argv[1]);
    program_length = read_file(program, sizeof program, argv[2]);
    name = argv[3];
    alarm(60);
    try_unwatched();
    try_all_generations();
    rlibreg *it = rlibreg_create();
    WANT(!rlibreg_format(it, "disk", 64, 0));
    end(child_that(call_all, it));
    WANT(!rlibreg_install(it, library, library_length));
    rlibreg_close(it);
    for (unsigned flags = 0; flags <= RLIBREG_READ_WRITE; flags++) {
        rlibreg_listing listing;
        it = opened(flags);
        pid_t first = child_that(call_all, it), second = child_that(close_it, it);
        WANT(flags ? is_held_alone("disk") : is_held("disk"));
        end(first);
        end(second);
        WANT(flags ? is_held_alone("disk") : is_held("disk"));
        WANT(!rlibreg_get_listing(it, &listing) && listing.libraries == 1);
        rlibreg_listing_free(&listing);
        pid_t third = child_that(only_has_it, it); /* the child keeps the file open as long as it
                                                    * lives */
        rlibreg_close(it);
        WANT(!is_held("disk"));
        rlibreg_close(opened(RLIBREG_READ_WRITE | RLIBREG_WAIT));
        end(third);
    }
    WANT(!unlink("disk"));
    puts("forked: a child has no use of its parent's disk, and doesn't give its lock away");
    return 0;
}

/* updating LIBRARY NAME ends the updater of docs/C.md at each system call with which it opens,
 * makes and writes a disk. It tests this without a file, and with each file that may exist before
 * the updater runs. Then it runs the updater again, which has to succeed. Then eight threads run it
 * at once.
 * The test is linked with the updater, whose main is updater_main. LIBRARY has the SONAME NAME. */
#define _GNU_SOURCE
#include "watched.h"

#include <fcntl.h>
#include <pthread.h>
#include <sys/stat.h>
#include <sys/wait.h>
#include <unistd.h>

#define DISK "disk"
#define OTHER ".disk.rlibreg-new"

enum { LENGTH = 8192 * 512 }; /* length of the updater's disk in bytes */

int updater_main(int argc, char **argv);

static char *library;
static const char *name;

/* Runs the updater in a process of its own, which ends at call number `end`. Returns its status,
 * and sets `has_ended` to whether the process ended at that call. */
static int updater(long end, int *has_ended) {
    enum { ENDED = 77 };
    int status;
    fflush(stdout);
    pid_t child = fork();
    WANT(child >= 0);
    if (!child) {
        char *words[] = { "updater", DISK, library, NULL };
        WANT(freopen("/dev/null", "w", stdout) && freopen("/dev/null", "w", stderr));
        watch();
        watched.end = end;
        watched.end_status = ENDED;
        _exit(updater_main(3, words));
    }
    WANT(waitpid(child, &status, 0) == child && WIFEXITED(status));
    *has_ended = WEXITSTATUS(status) == ENDED;
    return WEXITSTATUS(status);
}

static void want_installed(const char *path) {
    rlibreg_listing listing;
    rlibreg *it = rlibreg_create();
    WANT(it && !rlibreg_open(it, path, 0) && !rlibreg_get_listing(it, &listing));
    WANT(listing.libraries == 1 && !strcmp(listing.names + listing.entries[0].name, name));
    rlibreg_listing_free(&listing);
    rlibreg_close(it);
}

static void put(const char *path, const char *bytes, size_t length, off_t whole) {
    int fd = open(path, O_WRONLY | O_CREAT | O_TRUNC, 0666);
    WANT(fd >= 0 && write(fd, bytes, length) == (ssize_t)length && !ftruncate(fd, whole));
    WANT(!close(fd));
}

/* Make the files that may exist before the updater runs. */
static void leave_nothing(void) {
}

static void leave_empty(void) {
    put(DISK, "", 0, 0);
}

static void leave_zeros(void) {
    put(DISK, "", 0, LENGTH);
}

static void leave_other(void) {
    put(OTHER, "x", 1, LENGTH);
}

static void leave_both(void) {
    put(DISK, "", 0, 0);
    put(OTHER, "", 0, 0);
}

static long try_ends(void (*leave)(void)) {
    for (long n = 0;; n++) {
        int has_ended, again;
        leave();
        updater(n, &has_ended);
        WANT(!updater(-1, &again));
        want_installed(DISK);
        WANT(!unlink(DISK));
        unlink(OTHER);
        WANT(!strcmp(names_here(), ""));
        if (!has_ended) return n;
    }
}

/* Checks that a file that may have another purpose stays as it is. */
static void try_others(const char *bytes, size_t length, off_t whole) {
    static char found[LENGTH + 1];
    int has_ended;
    put(DISK, bytes, length, whole);
    WANT(updater(-1, &has_ended) == 1);
    int fd = open(DISK, O_RDONLY);
    WANT(read(fd, found, sizeof found) == whole && !memcmp(found, bytes, length));
    for (off_t i = (off_t)length; i < whole; i++) WANT(!found[i]);
    WANT(!close(fd) && !unlink(DISK) && !strcmp(names_here(), ""));
}

static void try_links(void) {
    int has_ended;
    WANT(!symlink("none", DISK) && updater(-1, &has_ended) == 1 && !unlink(DISK));
    put("goal", "", 0, 0);
    WANT(!symlink("goal", DISK) && updater(-1, &has_ended) == 1);
    WANT(!strcmp(names_here(), "disk goal "));
    put("goal", "", 0, LENGTH);
    WANT(!updater(-1, &has_ended));
    want_installed("goal");
    WANT(!unlink(DISK) && !unlink("goal"));
}

/* ---- Eight threads of one process */

static void *update(void *unused) {
    char *words[] = { "updater", DISK, library, NULL };
    WANT(!updater_main(3, words));
    return unused;
}

/* Checks that threads can update the disk at the same time. Each thread waits for the others, even
 * for the thread that makes the disk, and succeeds. */
static void try_threads(void (*leave)(void)) {
    int status;
    leave();
    fflush(stdout);
    pid_t child = fork();
    WANT(child >= 0);
    if (!child) {
        pthread_t threads[8];
        alarm(60);
        WANT(freopen("/dev/null", "w", stdout));
        for (int i = 0; i < 8; i++) WANT(!pthread_create(&threads[i], NULL, update, NULL));
        for (int i = 0; i < 8; i++) WANT(!pthread_join(threads[i], NULL));
        exit(0);
    }
    WANT(waitpid(child, &status, 0) == child && !status);
    want_installed(DISK);
    WANT(!unlink(DISK) && !strcmp(names_here(), ""));
}

int main(int argc, char **argv) {
    void (*const all[])(void) = { leave_nothing, leave_empty, leave_zeros, leave_other,
                                  leave_both };
    long ends = 0;
    WANT(argc == 3);
    library = argv[1];
    name = argv[2];
    for (size_t i = 0; i < sizeof all / sizeof *all; i++) {
        long here = try_ends(all[i]);
        WANT(here > 20);
        for (int times = 0; times < (i ? 2 : 8); times++) try_threads(all[i]);
        ends += here;
    }
    try_others("letters", 7, LENGTH);
    try_others("letters", 7, 7);
    try_others("letters", 7, 512 * 64);
    try_others("", 0, 512 * 64);
    try_links();
    printf("updating: the updater ended at each of %ld calls, and was run again: it succeeds\n",
           ends);
    return 0;
}

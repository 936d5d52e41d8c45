/* turns makes processes and threads take turns at a disk in the folder where it is run. It tries a
 * change beside readers that come one after the other, waits with limits under a thousand signals a
 * second, waits that are killed, and threads. `turns threads` tries only the threads, 32 of them,
 * with forks: for the sanitizer of threads. */
#define _GNU_SOURCE
#include "rlibreg.h"

#include <errno.h>
#include <fcntl.h>
#include <pthread.h>
#include <signal.h>
#include <stdatomic.h>
#include <stdio.h>
#include <stdlib.h>
#include <string.h>
#include <sys/file.h>
#include <sys/mman.h>
#include <sys/time.h>
#include <sys/wait.h>
#include <time.h>
#include <unistd.h>

#define WANT(what)                                                                                 \
    do {                                                                                           \
        if (!(what)) {                                                                             \
            fprintf(stderr, "%s: line %d: not so: %s\n", __FILE__, __LINE__, #what);               \
            _exit(1);                                                                              \
        }                                                                                          \
    } while (0)

enum { READ_WRITE = RLIBREG_READ_WRITE, WAIT = RLIBREG_WAIT, NO_LIMIT = -1 };

static double seconds(void) {
    struct timespec it;
    clock_gettime(CLOCK_MONOTONIC, &it);
    return (double)it.tv_sec + (double)it.tv_nsec / 1e9;
}

static void sleep_for(double time) {
    double end = seconds() + time;
    while (seconds() < end) usleep(1000);
}

/* Opens a disk, which has to return `wanted`. Returns the struct. */
static rlibreg *opens(const char *path, unsigned flags, int limit, uint32_t wanted) {
    rlibreg *it = rlibreg_create();
    WANT(it);
    rlibreg_set_wait_limit(it, limit);
    WANT(rlibreg_open(it, path, flags) == wanted);
    return it;
}

/* Opens a disk, which has to return `wanted`. Returns the number of seconds that this takes. */
static double time_of(const char *path, unsigned flags, int limit, uint32_t wanted) {
    double began = seconds();
    rlibreg *it = opens(path, flags, limit, wanted);
    int why = errno;
    double took = seconds() - began;
    rlibreg_close(it);
    errno = why;
    return took;
}

static void format(const char *path) {
    rlibreg *it = rlibreg_create();
    WANT(it && !rlibreg_format(it, path, 64, 0));
    rlibreg_close(it);
}

/* Makes a child that calls `does` and then ends. Returns the child's process number. */
static pid_t child_that(void (*does)(void)) {
    fflush(stdout);
    pid_t child = fork();
    WANT(child >= 0);
    if (!child) {
        alarm(100);
        does();
        _exit(0);
    }
    return child;
}

static void end(pid_t child) {
    WANT(!kill(child, SIGKILL) && waitpid(child, NULL, 0) == child);
}

static void want_well(pid_t child) {
    int status;
    WANT(waitpid(child, &status, 0) == child && !status);
}

/* ---- A change beside readers that come one after the other */

enum { READERS = 6 };
static struct shared {
    _Atomic int is_over, waits;
    _Atomic long reads;
} *shared;

static void read_always(void) {
    while (!shared->is_over) {
        rlibreg *it = opens("disk", WAIT, NO_LIMIT, RLIBREG_DONE);
        usleep(20 * 1000);
        rlibreg_close(it);
        shared->reads++;
    }
}

/* Returns whether readers have the disk locked most of the time. */
static int are_steady(void) {
    int fd = open("disk", O_RDWR | O_CLOEXEC), times = 0;
    for (int i = 0; i < 40; i++) {
        times += !flock(fd, LOCK_EX | LOCK_NB);
        flock(fd, LOCK_UN);
        usleep(1000);
    }
    close(fd);
    return times < 20;
}

static void try_steady(void) {
    pid_t readers[READERS];
    shared->is_over = 0;
    for (int i = 0; i < READERS; i++) {
        readers[i] = child_that(read_always);
        usleep(4000);
    }
    WANT(are_steady());
    for (int i = 0; i < 6; i++) {
        long before = shared->reads;
        double took = time_of("disk", READ_WRITE | WAIT, i % 2 ? 5000 : NO_LIMIT, RLIBREG_DONE);
        WANT(took < 1.5); /* less than the maximum time for which readers give way */
        while (shared->reads < before + READERS) usleep(1000);
    }
    shared->is_over = 1;
    for (int i = 0; i < READERS; i++) want_well(readers[i]);
}

/* ---- Readers that give way */

static void change_a_moment(void) {
    rlibreg *it = opens("disk", READ_WRITE | WAIT, NO_LIMIT, RLIBREG_DONE);
    shared->waits++;
    sleep_for(0.2);
    rlibreg_close(it);
}

static void read_at_once(void) {
    rlibreg_close(opens("disk", 0, NO_LIMIT, RLIBREG_DONE));
}

/* Returns whether the mark requests readers to give way. */
static int is_marked(void) {
    int fd = open("disk", O_RDONLY | O_CLOEXEC);
    struct flock it = { .l_type = F_RDLCK, .l_start = (off_t)1 << 62, .l_len = 1 };
    WANT(fd >= 0 && !fcntl(fd, F_OFD_GETLK, &it) && !close(fd));
    return it.l_type == F_WRLCK;
}

/* Checks that a reader that gives way isn't refused when the change has its turn. While one change
 * has the lock and another waits, a reader doesn't give way: it is refused at once. */
static void try_giving_way(void) {
    shared->waits = 0;
    rlibreg *reader = opens("disk", 0, NO_LIMIT, RLIBREG_DONE);
    pid_t first = child_that(change_a_moment);
    while (!is_marked()) usleep(1000);
    pid_t giving = child_that(read_at_once), second = child_that(change_a_moment);
    sleep_for(0.1);
    rlibreg_close(reader);
    while (shared->waits < 2 && !(shared->waits && is_marked())) usleep(1000);
    if (shared->waits == 1) WANT(time_of("disk", 0, NO_LIMIT, RLIBREG_LOCKED) < 1.5);
    want_well(first);
    want_well(giving);
    want_well(second);
}

/* ---- Waits that are killed */

static void wait_to_change(void) {
    shared->waits = 1;
    opens("disk", READ_WRITE | WAIT, NO_LIMIT, RLIBREG_DONE);
}

static void wait_with_limit(void) {
    shared->waits = 1;
    opens("disk", READ_WRITE | WAIT, 60 * 1000, RLIBREG_DONE);
}

static void *wait_in_thread(void *unused) {
    wait_to_change();
    return unused;
}

/* Forks while a thread waits. The child goes on running. */
static void wait_and_fork(void) {
    pthread_t thread;
    WANT(!pthread_create(&thread, NULL, wait_in_thread, NULL));
    while (!shared->waits) usleep(1000);
    usleep(100 * 1000);
    if (!fork()) {
        alarm(100);
        shared->waits = 2;
        while (!shared->is_over) usleep(1000);
        shared->waits = 3;
        _exit(0);
    }
    pause();
}

static void try_kills(void) {
    void (*const all[])(void) = { wait_to_change, wait_with_limit, wait_and_fork };
    rlibreg *reader = opens("disk", 0, NO_LIMIT, RLIBREG_DONE);
    for (size_t i = 0; i < 3; i++) {
        shared->waits = shared->is_over = 0;
        pid_t writer = child_that(all[i]);
        while (shared->waits < (all[i] == wait_and_fork ? 2 : 1) || !is_marked()) usleep(1000);
        if (i == 0) { /* the reader gives way, and isn't refused afterwards */
            double took = time_of("disk", 0, NO_LIMIT, RLIBREG_DONE);
            WANT(took >= 1.99 && took < 10);
            took = time_of("disk", WAIT, 100, RLIBREG_DONE);
            WANT(took >= 0.1 && took < 1.9);
        }
        end(writer);
        WANT(!is_marked() && time_of("disk", 0, NO_LIMIT, RLIBREG_DONE) < 1.9);
        shared->is_over = 1;
        while (all[i] == wait_and_fork && shared->waits < 3) usleep(1000);
    }
    rlibreg_close(reader);
}

/* ---- Limits and signals */

static void ignore(int signal) {
    (void)signal;
}

/* Begins to send a thousand signals a second, or ends that. */
static void have_signals(int come, int flags) {
    struct sigaction how = { .sa_handler = ignore, .sa_flags = flags };
    struct itimerval each = { { 0, come ? 1000 : 0 }, { 0, come ? 1000 : 0 } };
    WANT(!sigaction(SIGALRM, &how, NULL) && !setitimer(ITIMER_REAL, &each, NULL));
}

static void hold_a_moment(void) {
    rlibreg *it = opens("disk", READ_WRITE, NO_LIMIT, RLIBREG_DONE);
    shared->waits = 1;
    sleep_for(0.3);
    rlibreg_close(it);
}

static void try_limits(void) {
    for (unsigned flags = 0; flags <= READ_WRITE; flags++) {
        shared->is_over = shared->waits = 0;
        pid_t holder = child_that(hold_a_moment);
        while (!shared->waits) usleep(1000);
        have_signals(1, 0);
        WANT(time_of("disk", flags | WAIT, NO_LIMIT, RLIBREG_SYSTEM) < 0.3 && errno == EINTR);
        double took = time_of("disk", flags | WAIT, 60, RLIBREG_LOCKED);
        WANT(took >= 0.06 && took < 0.25);
        time_of("disk", flags | WAIT, 60 * 1000, RLIBREG_DONE);
        have_signals(0, 0);
        WANT(waitpid(holder, NULL, 0) == holder);
        shared->waits = 0;
        holder = child_that(hold_a_moment);
        while (!shared->waits) usleep(1000);
        have_signals(1, SA_RESTART);
        time_of("disk", flags | WAIT, NO_LIMIT, RLIBREG_DONE);
        have_signals(0, 0);
        WANT(waitpid(holder, NULL, 0) == holder);
    }
}

/* Tries a process that may only read the disk, and locks the bytes of the marks: a change goes on
 * without the marks. */
static void try_malice(void) {
    int fd = open("disk", O_RDONLY | O_CLOEXEC);
    struct flock all = { .l_type = F_RDLCK, .l_start = (off_t)1 << 61 };
    WANT(fd >= 0 && !fcntl(fd, F_OFD_SETLK, &all));
    shared->waits = 0;
    pid_t holder = child_that(hold_a_moment);
    while (!shared->waits) usleep(1000);
    time_of("disk", READ_WRITE | WAIT, NO_LIMIT, RLIBREG_DONE);
    WANT(waitpid(holder, NULL, 0) == holder);
    WANT(time_of("disk", 0, NO_LIMIT, RLIBREG_DONE) < 1.9);
    close(fd);
}

/* ---- Threads */

static _Atomic int inside, turns_had;

/* Opens the disk again and again. Checks that no other thread has a lock while a thread has the
 * exclusive lock. */
static void *take_turns(void *number) {
    unsigned flags = (size_t)number % 4 ? READ_WRITE : 0;
    for (int i = 0; i < 12; i++) {
        int limit = ((size_t)number + (size_t)i) % 3 ? NO_LIMIT : 60 * 1000;
        rlibreg *it = opens("disk", flags | WAIT, limit, RLIBREG_DONE);
        int before = atomic_fetch_add(&inside, flags ? 1000 : 1);
        WANT(flags ? !before : before < 1000);
        usleep(100);
        atomic_fetch_sub(&inside, flags ? 1000 : 1);
        turns_had++;
        rlibreg_close(it);
    }
    return NULL;
}

/* Checks that each thread gets its turns, even while children are forked. */
static void try_threads(size_t count) {
    pthread_t threads[32];
    turns_had = 0;
    for (size_t i = 0; i < count; i++)
        WANT(!pthread_create(&threads[i], NULL, take_turns, (void *)i));
    for (int i = 0; i < 20; i++) {
        pid_t child = fork();
        if (!child) _exit(0);
        WANT(child > 0 && waitpid(child, NULL, 0) == child);
        usleep(1000);
    }
    for (size_t i = 0; i < count; i++) WANT(!pthread_join(threads[i], NULL));
    WANT(turns_had == (int)count * 12);
}

static rlibreg *_Atomic handed;

/* Opens `other`, waits for `disk`, and closes both. */
static void *take_both(void *unused) {
    rlibreg *first = opens("other", READ_WRITE | WAIT, NO_LIMIT, RLIBREG_DONE);
    turns_had = 1;
    rlibreg *second = opens("disk", READ_WRITE | WAIT, NO_LIMIT, RLIBREG_DONE);
    rlibreg_close(second);
    rlibreg_close(first);
    return unused;
}

/* Closes what another thread opened. */
static void *close_handed(void *unused) {
    rlibreg_information found;
    WANT(!rlibreg_get_info(handed, &found));
    turns_had = 1;
    sleep_for(0.05);
    rlibreg_close(handed);
    return unused;
}

/* Checks that a thread that would wait for itself is refused at once, and that a thread waits for
 * others. */
static void try_circle(void) {
    pthread_t thread;
    turns_had = 0;
    rlibreg *it = opens("disk", 0, NO_LIMIT, RLIBREG_DONE);
    WANT(!pthread_create(&thread, NULL, take_both, NULL));
    while (!turns_had) usleep(1000);
    usleep(50 * 1000); /* now the thread waits */
    time_of("other", WAIT, NO_LIMIT, RLIBREG_LOCKED);
    time_of("disk", READ_WRITE | WAIT, NO_LIMIT, RLIBREG_LOCKED);
    rlibreg_close(it);
    time_of("other", WAIT, NO_LIMIT, RLIBREG_DONE);
    WANT(!pthread_join(thread, NULL));
    turns_had = 0;
    handed = opens("disk", READ_WRITE, NO_LIMIT, RLIBREG_DONE);
    WANT(!pthread_create(&thread, NULL, close_handed, NULL));
    while (!turns_had) usleep(1000);
    time_of("disk", READ_WRITE | WAIT, NO_LIMIT, RLIBREG_DONE);
    WANT(!pthread_join(thread, NULL));
}

/* ---- A thread that another one cancels */

static int calls_ended;

static void *call_while_cancelled(void *unused) {
    (void)unused;
    rlibreg *it = rlibreg_create();
    WANT(it && !pthread_cancel(pthread_self()));
    WANT(!rlibreg_format(it, "new", 64, 0) && !rlibreg_preload(it, NULL, 0));
    rlibreg_close(it);
    it = opens("disk", READ_WRITE, NO_LIMIT, RLIBREG_DONE);
    WANT(!rlibreg_preload(it, NULL, 0));
    rlibreg_close(it);
    calls_ended = 1;
    pthread_testcancel();
    return NULL;
}

/* Checks that a cancelled thread completes its call before it ends. */
static void try_cancel(void) {
    pthread_t thread;
    void *ended;
    WANT(!pthread_create(&thread, NULL, call_while_cancelled, NULL));
    WANT(!pthread_join(thread, &ended));
    WANT(ended == PTHREAD_CANCELED && calls_ended);
    rlibreg_close(opens("new", READ_WRITE, NO_LIMIT, RLIBREG_DONE));
    rlibreg_close(opens("disk", READ_WRITE, NO_LIMIT, RLIBREG_DONE));
    WANT(!unlink("new"));
}

int main(int argc, char **argv) {
    int only_threads = argc == 2 && !strcmp(argv[1], "threads");
    WANT(argc == 1 || only_threads);
    shared = mmap(NULL, sizeof *shared, PROT_READ | PROT_WRITE, MAP_SHARED | MAP_ANONYMOUS, -1, 0);
    WANT(shared != MAP_FAILED);
    format("disk");
    format("other");
    alarm(100); /* ends the test if some process or thread never gets its turn */
    if (!only_threads) {
        try_steady();
        try_giving_way();
        try_kills();
        try_limits();
        try_malice();
        try_cancel();
    }
    alarm(100);
    try_threads(only_threads ? 32 : 8);
    try_circle();
    WANT(!unlink("disk") && !unlink("other"));
    puts(only_threads ? "turns: 32 threads, with forks: as wanted"
                      : "turns: changes beside readers, limits, kills and threads: as wanted");
    return 0;
}

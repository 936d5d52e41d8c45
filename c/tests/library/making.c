/* making LIBRARY NAME makes registries in the folder where it is run, and watches the system
 * calls. The test makes each call fail, and every two calls, and ends the process at each call.
 * It also tries file systems without hard links, and files that exist before or are put there
 * meanwhile. After each of these, there has to be no disk or a whole one, and a registry can be
 * made. LIBRARY has the SONAME NAME. */
#define _GNU_SOURCE
#include "watched.h"

#include <fcntl.h>
#include <sys/file.h>
#include <sys/stat.h>
#include <sys/wait.h>
#include <unistd.h>

#define DISK "disk"
#define OTHER ".disk.rlibreg-new"

static char library[1 << 20];
static size_t library_length;
static const char *name;

static const char *text_of(uint32_t status) {
    switch (status) {
    case RLIBREG_DONE:
        return "ok\n";
    case RLIBREG_DEVICE:
        return "refused S1 Device\n";
    case RLIBREG_ALREADY_FORMATTED:
        return "refused S4 AlreadyFormatted\n";
    case RLIBREG_BAD_GEOMETRY:
        return "refused S6 BadGeometry\n";
    }
    return "";
}

/* Makes a registry, and returns the status. If the registry is made, the struct is open for changes
 * and has the lock. */
static uint32_t format_path(const char *path, unsigned flags) {
    rlibreg *it = rlibreg_create();
    WANT(it);
    rlibreg_set_wait_limit(it, 20);
    uint32_t status = rlibreg_format(it, path, 64, flags);
    int why = errno;
    WANT(rlibreg_last_answer(it)->status == status);
    WANT(!strcmp(rlibreg_text(it), text_of(status)));
    if (!status) {
        int was_on = watched.is_on;
        unwatch();
        WANT(is_held_alone(path) && !rlibreg_install(it, library, library_length));
        WANT(!rlibreg_remove(it, name));
        watched.is_on = was_on;
    } else {
        WANT(rlibreg_install(it, library, library_length) == RLIBREG_READ_ONLY);
    }
    rlibreg_close(it);
    errno = why;
    return status;
}

static uint32_t format(unsigned flags) {
    return format_path(DISK, flags);
}

static int fails_by(uint32_t status, int why) {
    return status == RLIBREG_SYSTEM && errno == why;
}

/* Returns the generation of a registry, which has to be whole and empty. */
static uint64_t generation_of(const char *path) {
    rlibreg_listing listing;
    rlibreg *it = rlibreg_create();
    WANT(!rlibreg_open(it, path, 0) && !rlibreg_get_listing(it, &listing) && !listing.libraries);
    rlibreg_listing_free(&listing);
    rlibreg_close(it);
    return listing.generation;
}

static int is_there(const char *path) {
    return !access(path, F_OK);
}

static int here(const char *names) {
    return !strcmp(names_here(), names);
}

static void clear(void) {
    unlink(DISK);
    unlink(OTHER);
    WANT(here(""));
}

/* Writes a file, and replaces its old content. */
static void put(const char *path, const char *bytes, size_t length) {
    int fd = open(path, O_WRONLY | O_CREAT | O_TRUNC, 0666);
    WANT(fd >= 0 && write(fd, bytes, length) == (ssize_t)length && !close(fd));
}

/* ---- Calls that fail */

static void try_order(void) {
    watch();
    WANT(!format(0));
    unwatch();
    WANT(!strcmp(watched.log, "open folder folder make lock-alone cut write sync read read-past map "
                              "copy read sync write sync link unlink sync-folder names unlock "));
    WANT(here("disk "));
    clear();
}

/* Checks that calls which failed left no disk or a whole one, and that a registry can be made
 * afterwards. */
static void want_none_or_whole(uint32_t status) {
    int was_made = is_there(DISK);
    if (was_made) generation_of(DISK);
    if (!status) WANT(was_made);
    WANT(format(0) == (was_made ? RLIBREG_ALREADY_FORMATTED : RLIBREG_DONE));
    generation_of(DISK);
}

static int has_failed(const char *word) {
    return !strcmp(watched.failed, word);
}

static long try_faults(int why) {
    for (long n = 0;; n++) {
        watch();
        watched.first = n;
        watched.why = why;
        uint32_t status = format(0);
        int told = errno;
        unwatch();
        if (n >= watched.calls) {
            clear();
            return n;
        }
        int in_plan = has_failed("write") || has_failed("sync") || has_failed("length");
        int has_name = has_failed("unlink") || has_failed("sync-folder") ||
                       (has_failed("names") && why == EIO);
        if (status) WANT(told == why || told == EAGAIN); /* errno of the last check before the file
                                                          * gets its name */
        if (status) WANT(has_name || in_plan || status == RLIBREG_SYSTEM);
        if (has_name) WANT(status == RLIBREG_DEVICE);
        WANT(here(has_name || !status ? "disk " : "")); /* and never the other name */
        want_none_or_whole(status);
        WANT(here("disk "));
        clear();
    }
}

static void try_two_faults(long calls) {
    for (long first = 0; first < calls; first++) {
        for (long second = first + 1; second < calls + 8; second++) {
            watch();
            watched.first = first;
            watched.second = second;
            watched.why = EIO;
            uint32_t status = format(0);
            unwatch();
            want_none_or_whole(status);
            clear();
        }
    }
}

/* Ends the process at each call. If `is_moved`, moves the disk that the process left, before the
 * next one is made. */
static void try_ends(long calls, int is_moved) {
    for (long n = 0; n < calls; n++) {
        int status;
        fflush(stdout);
        pid_t child = fork();
        WANT(child >= 0);
        if (!child) {
            watch();
            watched.end = n;
            format(0);
            _exit(1);
        }
        WANT(waitpid(child, &status, 0) == child && WIFEXITED(status) && !WEXITSTATUS(status));
        if (is_moved && is_there(DISK)) {
            WANT(!rename(DISK, "moved") && !format(0) && !generation_of("moved"));
            WANT(!unlink("moved") && here("disk "));
        } else {
            want_none_or_whole(1);
        }
        clear();
    }
}

/* ---- File systems without hard links */

static void watch_links(int why, int rename_why) {
    watch();
    watched.refused = "link";
    watched.because = why;
    if (rename_why) watched.refused_too = "rename-new";
    watched.because_too = rename_why;
}

static void try_no_links(void) {
    const int kinds[] = { EPERM, EOPNOTSUPP, ENOSYS, EMLINK };
    for (size_t i = 0; i < 4; i++) {
        watch_links(kinds[i], 0);
        WANT(!format(0));
        unwatch();
        WANT(here("disk ") && made("link rename-new sync sync-folder names"));
        clear();
        watch_links(kinds[i], i % 2 ? EINVAL : ENOSYS);
        WANT(!format(0));
        unwatch();
        WANT(here("disk ") && made("link rename-new rename sync sync-folder names"));
        clear();
    }
    watch_links(EACCES, 0);
    WANT(fails_by(format(0), EACCES) && !made("rename"));
    watch_links(EPERM, EACCES);
    WANT(fails_by(format(0), EACCES) && !made("rename "));
    unwatch();
    WANT(here(""));
}

/* ---- Names that aren't on the medium, although the sync of their folder succeeded */

static void watch_names(int why) {
    watch();
    watched.refused = "names";
    watched.because = why;
}

static void try_lost_names(void) {
    const int lost[] = { EROFS, EIO };
    const int cannot_tell[] = { EPERM, EACCES, EOPNOTSUPP, ENOSYS, EINVAL, ENOSPC };
    for (size_t i = 0; i < 2; i++) {
        watch_names(lost[i]);
        WANT(format(0) == RLIBREG_DEVICE && errno == lost[i] && here("disk "));
        WANT(fails_by(format(0), lost[i]) && fails_by(format(0), lost[i]));
        watched.is_read_only = 1;
        WANT(format(0) == RLIBREG_ALREADY_FORMATTED);
        unwatch();
        WANT(format(0) == RLIBREG_ALREADY_FORMATTED);
        clear();
    }
    for (size_t i = 0; i < 6; i++) {
        watch_names(cannot_tell[i]);
        WANT(!format(0) && format(0) == RLIBREG_ALREADY_FORMATTED);
        unwatch();
        clear();
    }
}

/* ---- Files that are put there meanwhile */

static const char *put_before; /* word of a call */
static const char *put_what;   /* file that is put in the disk's place before the call */
static const char *put_where;

static void put_meanwhile(const char *word) {
    if (!strcmp(word, put_before) && !is_there(put_where)) WANT(!link(put_what, put_where));
}

/* Puts a registry or a short file under the name of the disk before a call is made. */
static void try_raced(const char *before, int why, int rename_why) {
    put_before = before;
    put_where = DISK;
    WANT(!format_path("ready", 0));
    put("short", "x", 1);
    for (int is_short = 0; is_short < 2; is_short++) {
        put_what = is_short ? "short" : "ready";
        watch_links(why, rename_why);
        if (!why) watched.refused = NULL;
        watched.before = put_meanwhile;
        WANT(format(0) == (is_short ? RLIBREG_BAD_GEOMETRY : RLIBREG_ALREADY_FORMATTED));
        unwatch();
        WANT(here("disk ready short ") && !unlink(DISK));
    }
    WANT(!unlink("ready") && !unlink("short"));
}

static int thefts;

/* Acts like another process that takes the name for a leftover, and removes the name. */
static void steal(const char *word) {
    if (!strcmp(word, "lock-alone") && thefts-- > 0) WANT(!unlink(OTHER));
}

static void try_stolen(void) {
    watch();
    thefts = 15;
    watched.before = steal;
    WANT(!format(0));
    watch();
    thefts = 16;
    watched.before = steal;
    clear();
    WANT(format(0) == RLIBREG_LOCKED && !is_there(DISK));
    unwatch();
    WANT(here(""));
}

/* ---- Files that have the other name */

/* Tries a regular file that no process has locked: its name is removed, and its bytes stay. */
static void try_left(const char *bytes, size_t length) {
    char found[8192];
    put("kept", bytes, length);
    WANT(!link("kept", OTHER) && !format(0) && here("disk kept "));
    int fd = open("kept", O_RDONLY);
    WANT(read(fd, found, sizeof found) == (ssize_t)length && !memcmp(found, bytes, length));
    WANT(!close(fd) && !unlink("kept"));
    clear();
}

static void try_leftovers(void) {
    static const char zeros[4096];
    try_left("", 0);
    try_left(zeros, 512);
    try_left(zeros, sizeof zeros);
    try_left("letters of somebody's", 21);
    WANT(!format_path("first", 0) && !link("first", OTHER) && !format(0) && here("disk first "));
    generation_of("first");
    WANT(!unlink("first"));
    clear();
    WANT(!mkdir(OTHER, 0777) && fails_by(format(0), EINVAL) && !rmdir(OTHER) && here(""));
    WANT(!mkfifo(OTHER, 0666) && fails_by(format(0), EINVAL) && !unlink(OTHER) && here(""));
    put("goal", "x", 1);
    WANT(!symlink("goal", OTHER) && fails_by(format(0), EINVAL) && !unlink(OTHER) && here("goal "));
    WANT(!symlink("none", OTHER) && fails_by(format(0), EINVAL) && !unlink(OTHER) && here("goal "));
    WANT(!symlink("none", DISK) && fails_by(format(0), ENOENT) && !unlink(DISK) && here("goal "));
    WANT(!unlink("goal"));
}

static void try_held(void) {
    const int kinds[] = { LOCK_SH, LOCK_EX };
    for (size_t i = 0; i < 2; i++) {
        put(OTHER, "x", 1);
        int fd = open(OTHER, O_RDONLY);
        WANT(fd >= 0 && !flock(fd, kinds[i]));
        WANT(format(0) == RLIBREG_LOCKED && format(RLIBREG_WAIT) == RLIBREG_LOCKED);
        WANT(here(OTHER " ") && !close(fd) && !format(0));
        clear();
    }
    const int cannot[] = { ENOLCK, EOPNOTSUPP, EINTR };
    for (size_t i = 0; i < 3; i++) {
        watch();
        watched.refused = "lock-alone";
        watched.because = cannot[i];
        WANT(fails_by(format(0), cannot[i]));
        unwatch();
        WANT(here(""));
    }
}

/* Tries a name that has no room for more bytes. */
static void try_long_names(void) {
    for (size_t length = 241; length <= 255; length += length == 243 ? 12 : 1) {
        char path[300] = "./";
        memset(path + 2, 'n', length);
        path[2 + length] = 0;
        WANT(!mkdir(".rlibreg-new", 0777));
        uint32_t status = format_path(path, 0);
        WANT(length > 242 ? fails_by(status, EINVAL) : !status);
        WANT(!rmdir(".rlibreg-new") && (!status || !format_path(path, 0)));
        WANT(!unlink(path) && here(""));
    }
}

/* ---- A file that exists is formatted in place */

static void try_in_place(void) {
    static char zeros[64 * 512];
    put("kept", zeros, sizeof zeros);
    WANT(!link("kept", DISK));
    watch();
    WANT(!format(0) && made("sync-folder names") && !made("make") && !made("link"));
    unwatch();
    generation_of("kept");
    WANT(format(0) == RLIBREG_ALREADY_FORMATTED && !unlink("kept"));
    put(DISK, "", 0);
    WANT(format(0) == RLIBREG_BAD_GEOMETRY && here("disk "));
    watch();
    watched.refused = "sync-folder";
    watched.because = EIO;
    WANT(fails_by(format(0), EIO) && !made("write"));
    unwatch();
    clear();
}

static void try_faults_in_place(void) {
    static char zeros[64 * 512];
    for (long n = 0;; n++) {
        put(DISK, zeros, sizeof zeros);
        watch();
        watched.first = n;
        watched.why = EIO;
        uint32_t status = format(0);
        int told = errno;
        unwatch();
        if (n >= watched.calls) break;
        if (status) WANT(told == EIO && (status == RLIBREG_SYSTEM || status == RLIBREG_DEVICE));
        WANT(here("disk "));
        status = format(0); /* a second try: the registry was made before, or is made now */
        WANT(!status || status == RLIBREG_ALREADY_FORMATTED);
        generation_of(DISK);
    }
    clear();
}

int main(int argc, char **argv) {
    WANT(argc == 3);
    FILE *file = fopen(argv[1], "rb");
    WANT(file && (library_length = fread(library, 1, sizeof library, file)));
    fclose(file);
    name = argv[2];
    int free_number = dup(0);
    close(free_number);
    try_order();
    try_faults(ENOSPC);
    try_faults(EDQUOT);
    long calls = try_faults(EIO);
    try_two_faults(calls);
    try_ends(calls, 0);
    try_ends(calls, 1);
    try_no_links();
    try_lost_names();
    try_raced("link", 0, 0);
    try_raced("rename-new", EPERM, 0);
    try_raced("rename-new", EPERM, EINVAL);
    try_stolen();
    try_leftovers();
    try_held();
    try_long_names();
    try_in_place();
    try_faults_in_place();
    WANT(dup(0) == free_number); /* nothing was left open */
    printf("making: each of %ld calls failed, every two of them, and the process ended at each\n",
           calls);
    return 0;
}

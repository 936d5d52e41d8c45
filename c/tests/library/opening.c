/* opening LIBRARY NAME opens disks in the folder where it is run, and watches the system
 * calls. It checks the order of the calls, locks, files that are replaced meanwhile, syncs that a
 * file system doesn't support, and block devices, for which regular files are used. LIBRARY has the
 * SONAME NAME. */
#define _GNU_SOURCE
#include "watched.h"

#include <fcntl.h>
#include <sys/file.h>
#include <sys/stat.h>
#include <unistd.h>

static char library[1 << 20];
static size_t library_length;
static const char *name;

enum { READ_WRITE = RLIBREG_READ_WRITE, WAIT = RLIBREG_WAIT };

static uint32_t opens(const char *path, unsigned flags) {
    rlibreg *it = rlibreg_create();
    WANT(it);
    uint32_t status = rlibreg_open(it, path, flags);
    int why = errno;
    WANT(rlibreg_last_answer(it)->status == status && !rlibreg_text(it)[0]);
    WANT(rlibreg_errno(it) == (status == RLIBREG_SYSTEM ? why : 0));
    rlibreg_close(it);
    errno = why;
    return status;
}

static int fails_by(uint32_t status, int why) {
    return status == RLIBREG_SYSTEM && errno == why;
}

static void format(const char *path) {
    rlibreg *it = rlibreg_create();
    WANT(it && !rlibreg_format(it, path, 64, 0));
    rlibreg_close(it);
}

/* Returns the generation of the registry of a file. */
static uint64_t generation_of(const char *path, unsigned flags) {
    rlibreg_listing listing;
    rlibreg *it = rlibreg_create();
    WANT(it && !rlibreg_open(it, path, flags) && !rlibreg_get_listing(it, &listing));
    rlibreg_listing_free(&listing);
    rlibreg_close(it);
    return listing.generation;
}

/* ---- The order of the calls */

static void try_order(void) {
    const char *behind = "sync read read-past map ";
    const struct {
        unsigned flags;
        const char *lock;
    } all[] = { { 0, "early lock-shared" },
                { WAIT, "early lock-shared-waits" },
                { READ_WRITE, "lock-alone mark-changes" },
                { READ_WRITE | WAIT, "lock-alone mark-changes" } };
    for (size_t i = 0; i < sizeof all / sizeof *all; i++) {
        char wanted[160];
        snprintf(wanted, sizeof wanted, "open %s %s%sunlock ", all[i].lock, behind,
                 all[i].flags & READ_WRITE ? "folder " : "");
        watch();
        WANT(!opens("disk", all[i].flags));
        WANT(!strcmp(watched.log, wanted));
        unwatch();
    }
}

/* Makes each call of an opening fail. Checks that the error is reported, and that nothing stays
 * open. */
static void try_faults(unsigned flags) {
    for (long n = 0;; n++) {
        watch();
        watched.first = n;
        watched.why = EIO;
        uint32_t status = opens("disk", flags);
        int why = errno;
        unwatch();
        if (n >= watched.calls) break;
        WANT(!status || (status == RLIBREG_SYSTEM && why == EIO));
        /* the path is opened again, the opening continues without the call, or nothing is left to
         * do */
        WANT(!status == !!strstr("stat attributes past unlock", watched.failed) ||
             (!status && strstr("flags system look mark-changes unmark", watched.failed)));
        WANT(!is_held("disk"));
    }
}

/* ---- The lock */

static const char *watched_disk;

static void want_held_alone(const char *word) {
    if (!strcmp(word, "sync") || !strcmp(word, "write")) WANT(is_held_alone(watched_disk));
}

static void try_locks(void) {
    rlibreg *it = rlibreg_create();
    WANT(!rlibreg_open(it, "disk", 0) && is_held("disk") && !is_held_alone("disk"));
    WANT(opens("disk", READ_WRITE) == RLIBREG_LOCKED && !opens("disk", 0));
    rlibreg_close(it);
    it = rlibreg_create();
    WANT(!is_held("disk") && !rlibreg_open(it, "disk", READ_WRITE) && is_held_alone("disk"));
    WANT(opens("disk", 0) == RLIBREG_LOCKED && opens("disk", READ_WRITE) == RLIBREG_LOCKED);
    watched_disk = "disk";
    watch();
    watched.before = want_held_alone;
    WANT(!rlibreg_install(it, library, library_length) && made("write"));
    watched.refused = "sync";
    watched.because = EIO;
    WANT(rlibreg_remove(it, name) == RLIBREG_DEVICE && errno == EIO);
    unwatch();
    WANT(is_held_alone("disk"));
    rlibreg_close(it);
    WANT(!is_held("disk"));
    const int kinds[] = { ENOLCK, EOPNOTSUPP, EINTR };
    for (size_t i = 0; i < 3; i++) {
        watch();
        watched.refused = "lock-shared";
        watched.because = kinds[i];
        WANT(fails_by(opens("disk", 0), kinds[i]) && !made("sync"));
        unwatch();
    }
}

/* Checks that a thread doesn't wait for its own lock, because it would wait for itself. */
static void try_own_locks(void) {
    WANT(!link("disk", "second"));
    for (unsigned first = 0; first <= READ_WRITE; first++) {
        rlibreg *it = rlibreg_create(), *other = rlibreg_create();
        WANT(!rlibreg_open(it, "disk", first | WAIT));
        for (unsigned second = 0; second <= READ_WRITE; second++) {
            uint32_t wanted = first || second ? RLIBREG_LOCKED : RLIBREG_DONE;
            WANT(opens("disk", second | WAIT) == wanted);
            WANT(opens("second", second | WAIT) == wanted);
        }
        WANT(rlibreg_format(other, "disk", 64, WAIT) == RLIBREG_LOCKED);
        rlibreg_close(it);
        WANT(!rlibreg_open(other, "disk", READ_WRITE | WAIT));
        rlibreg_close(other);
    }
    rlibreg *it = rlibreg_create();
    WANT(!rlibreg_format(it, "new", 64, WAIT) && opens("new", WAIT) == RLIBREG_LOCKED);
    rlibreg_close(it);
    WANT(!opens("new", READ_WRITE | WAIT) && !unlink("new") && !unlink("second"));
}

/* ---- Files that are replaced before they are locked */

static int replacements, then_none;

static void replace_disk(const char *word) {
    if (strncmp(word, "lock", 4) || !replacements) return;
    replacements--;
    WANT(!unlink("disk"));
    if (then_none && !replacements) return;
    format("disk");
}

static uint32_t opens_replaced(int times, int none, unsigned flags) {
    format("disk");
    replacements = times;
    then_none = none;
    watch();
    watched.before = replace_disk;
    uint32_t status = opens("disk", flags);
    unwatch();
    int why = errno;
    if (!none) WANT(!unlink("disk"));
    errno = why;
    return status;
}

static void try_replaced(void) {
    WANT(!unlink("disk"));
    for (unsigned flags = 0; flags <= READ_WRITE; flags++) {
        WANT(!opens_replaced(1, 0, flags) && strstr(made("open") + 1, "open"));
        WANT(!opens_replaced(15, 0, flags));
        WANT(opens_replaced(16, 0, flags) == RLIBREG_LOCKED && !made("sync"));
        WANT(fails_by(opens_replaced(3, 1, flags), ENOENT));
    }
    format("disk");
}

/* ---- Syncs */

static void try_syncs(void) {
    const int kinds[] = { EINVAL, EROFS, EIO, ENOSPC, EDQUOT };
    for (size_t i = 0; i < sizeof kinds / sizeof *kinds; i++) {
        int has_none = kinds[i] == EINVAL;
        watch();
        watched.refused = "sync";
        watched.because = kinds[i];
        uint32_t status = opens("disk", 0);
        WANT(has_none ? !status && made("sync map unlock")
                      : fails_by(status, kinds[i]) && !made("map"));
        WANT(fails_by(opens("disk", READ_WRITE), kinds[i]));
        unwatch();
    }
}

/* ---- Files that are neither regular files nor block devices */

static void try_kinds(void) {
    WANT(!mkdir("folder", 0777) && !mkfifo("pipe", 0666) && !symlink("none", "nothing"));
    WANT(!symlink("folder", "to-folder") && !symlink("pipe", "to-pipe"));
    WANT(!symlink("disk", "to-disk") && !symlink("/dev/null", "to-null"));
    const char *others[] = { "folder", "pipe", "/dev/null", "to-folder", "to-pipe", "to-null" };
    for (size_t i = 0; i < sizeof others / sizeof *others; i++) {
        WANT(fails_by(opens(others[i], 0), EINVAL));
        WANT(opens(others[i], READ_WRITE) == RLIBREG_SYSTEM);
        rlibreg *it = rlibreg_create();
        WANT(rlibreg_format(it, others[i], 64, 0) == RLIBREG_SYSTEM);
        rlibreg_close(it);
    }
    WANT(fails_by(opens("nothing", 0), ENOENT) && fails_by(opens("nothing", READ_WRITE), ENOENT));
    WANT(!opens("to-disk", 0) && !opens("to-disk", READ_WRITE));
    WANT(!strcmp(names_here(), "disk folder nothing pipe to-disk to-folder to-null to-pipe "));
    const char *made_here[] = { "nothing", "to-disk", "to-folder", "to-null", "to-pipe", "pipe" };
    for (size_t i = 0; i < sizeof made_here / sizeof *made_here; i++) WANT(!unlink(made_here[i]));
    WANT(!rmdir("folder"));
}

/* ---- Block devices */

static void watch_device(void) {
    watch();
    watched.device = 0x701;
}

static int changes_left;

static void change_device(const char *word) {
    if (!strcmp(word, "open-alone") && changes_left-- > 0) watched.device++;
}

static void try_devices(void) {
    uint64_t generation = generation_of("disk", 0);
    watch_device();
    WANT(generation_of("disk", 0) == generation);
    WANT(!strcmp(watched.log, "open early lock-shared sync read read-past map unlock "));
    watch_device();
    WANT(generation_of("disk", READ_WRITE) == generation);
    WANT(!strcmp(watched.log, "open lock-alone mark-changes open-alone sync read read-past map "
                              "folder unlock "));
    watch_device();
    watched.refused = "open-alone";
    watched.because = EBUSY;
    WANT(fails_by(opens("disk", READ_WRITE), EBUSY) && !made("sync"));
    watch_device();
    watched.before = change_device;
    changes_left = 15;
    WANT(!opens("disk", READ_WRITE) && made("sync"));
    watch_device();
    watched.before = change_device;
    changes_left = 16;
    WANT(opens("disk", READ_WRITE) == RLIBREG_LOCKED && !made("sync"));
    unwatch();
    WANT(!is_held("disk"));
}

/* Returns the number of milliseconds until an opening gets a lock or gives up. The lock isn't free
 * for the first `times` tries. */
static long waits(unsigned flags, int limit, const char *lock, long times, uint32_t wanted) {
    rlibreg *it = rlibreg_create();
    WANT(it);
    watched.refused = lock;
    watched.because = EWOULDBLOCK;
    watched.times = times;
    if (limit >= 0) rlibreg_set_wait_limit(it, limit);
    WANT(rlibreg_open(it, "disk", flags) == wanted);
    unwatch();
    rlibreg_close(it);
    return (long)(watched.slept / 1000000);
}

enum { LONG = 1 << 20 };

static void try_held_devices(void) {
    watch_device();
    WANT(waits(READ_WRITE, -1, "lock-alone", 150, RLIBREG_DONE) == 300);
    watch_device();
    WANT(waits(READ_WRITE, -1, "lock-alone", LONG, RLIBREG_LOCKED) == 2000);
    watch_device();
    WANT(waits(0, -1, "lock-shared", 1, RLIBREG_LOCKED) == 0);
    watch_device();
    WANT(waits(READ_WRITE | WAIT, -1, "lock-alone", 1, RLIBREG_DONE) == 0 && made("waits"));
    watch();
    WANT(waits(READ_WRITE, -1, "lock-alone", 1, RLIBREG_LOCKED) == 0); /* a regular file */
}

/* Checks that a wait ends at its limit, even if signals interrupt the calls of the system. */
static void try_limits(void) {
    const int limits[] = { 0, 1, 30, 5000 };
    for (size_t i = 0; i < 4; i++) {
        watch();
        WANT(waits(WAIT, limits[i], "lock-shared", LONG, RLIBREG_LOCKED) == limits[i]);
        watch();
        WANT(waits(READ_WRITE | WAIT, limits[i], "lock-alone", LONG, RLIBREG_LOCKED) == limits[i]);
        watch();
        watched.system = 0x6969; /* NFS */
        WANT(waits(READ_WRITE | WAIT, limits[i], "lock-alone", LONG, RLIBREG_LOCKED) == limits[i]);
        WANT(!made("mark"));
    }
    watch();
    WANT(waits(WAIT, 5000, "lock-shared", 100, RLIBREG_DONE) == 200);
    watch();
    WANT(waits(READ_WRITE | WAIT, 5000, "lock-alone", 100, RLIBREG_DONE) == 200);
    WANT(made("lock-alone mark-waits nap lock-alone") && made("mark-changes sync"));
    watch();
    WANT(waits(READ_WRITE | WAIT, -1, "lock-alone", 1, RLIBREG_DONE) == 0);
    WANT(made("lock-alone mark-waits lock-alone-waits mark-changes sync"));
}

int main(int argc, char **argv) {
    WANT(argc == 3);
    FILE *file = fopen(argv[1], "rb");
    WANT(file && (library_length = fread(library, 1, sizeof library, file)));
    fclose(file);
    name = argv[2];
    int free_number = dup(0);
    close(free_number);
    alarm(60); /* a process that waits for itself doesn't wait for ever */
    format("disk");
    try_order();
    try_faults(0);
    try_faults(READ_WRITE);
    try_locks();
    try_own_locks();
    try_syncs();
    try_kinds();
    try_devices();
    try_held_devices();
    try_limits();
    try_replaced();
    WANT(dup(0) == free_number); /* nothing was left open */
    WANT(!strcmp(names_here(), "disk "));
    WANT(!unlink("disk"));
    puts("opening: order, locks, syncs, files that are replaced, devices: as wanted");
    return 0;
}

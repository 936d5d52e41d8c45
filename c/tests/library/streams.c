/* streams LIBRARY NAME opens and changes disks while standard streams aren't open, are closed by
 * another thread, or are the disk. LIBRARY has the SONAME NAME. */
#define _GNU_SOURCE
#include "watched.h"

#include <fcntl.h>
#include <sys/stat.h>
#include <unistd.h>

enum { STREAMS = 3, READ_WRITE = RLIBREG_READ_WRITE };

static char library[1 << 20], before[64 * 512], found[64 * 512 + 1];
static size_t library_length;
static const char *name;
static int kept[STREAMS]; /* descriptors that keep this test's own streams */

static void keep_streams(void) {
    for (int i = 0; i < STREAMS; i++) WANT((kept[i] = fcntl(i, F_DUPFD_CLOEXEC, 10)) >= 10);
}

static void put_back(void) {
    for (int i = 0; i < STREAMS; i++) WANT(dup2(kept[i], i) == i);
}

/* Returns whether a descriptor is open for something to which nothing can be written and that isn't
 * the disk. */
static int is_filled(int number) {
    struct stat here, disk;
    WANT(!stat("disk", &disk));
    return !fstat(number, &here) && here.st_ino != disk.st_ino &&
           (fcntl(number, F_GETFL) & O_ACCMODE) == O_RDONLY && write(number, "x", 1) < 0;
}

static rlibreg *make(const char *path) {
    rlibreg *it = rlibreg_create();
    WANT(it && !rlibreg_format(it, path, 64, 0));
    return it;
}

static void read_disk(const char *path, char *bytes, size_t room) {
    FILE *file = fopen(path, "rb");
    WANT(file && fread(bytes, 1, room, file) == sizeof before && !fclose(file));
}

static int is_as_before(void) {
    read_disk("disk", found, sizeof found);
    return !memcmp(found, before, sizeof before);
}

/* Returns whether a call was refused because the disk is a stream. */
static int is_refused(uint32_t status) {
    return status == RLIBREG_SYSTEM && errno == ETXTBSY;
}

/* Tries each set of streams that aren't open. */
static void try_closed(void) {
    for (int set = 1; set < 1 << STREAMS; set++) {
        for (int makes = 0; makes < 2; makes++) {
            for (int i = 0; i < STREAMS; i++)
                if (set >> i & 1) close(i);
            rlibreg *it = makes ? make("new") : rlibreg_create();
            if (!makes) WANT(!rlibreg_open(it, "disk", READ_WRITE));
            for (int i = 0; i < STREAMS; i++)
                if (set >> i & 1) WANT(is_filled(i));
            WANT(!rlibreg_install(it, library, library_length));
            if (!makes) WANT(!rlibreg_remove(it, name));
            rlibreg_close(it);
            put_back();
        }
        WANT(!unlink("new"));
    }
}

/* Word of the call just before which another thread closes a stream. */
static const char *closing;
static int closed;

static void close_stream(const char *word) {
    if (!strcmp(word, closing)) close(closed);
}

static void try_closed_meanwhile(const char *word, int makes) {
    closing = word;
    for (closed = 0; closed < STREAMS; closed++) {
        watch();
        watched.before = close_stream;
        rlibreg *it = rlibreg_create();
        WANT(!(makes ? rlibreg_format(it, "new", 64, 0) : rlibreg_open(it, "disk", READ_WRITE)));
        unwatch();
        WANT(made(word) && is_filled(closed));
        WANT(!rlibreg_upgrade(it));
        rlibreg_close(it);
        put_back();
        if (makes) WANT(!unlink("new"));
    }
}

/* Tries a disk that is also open as a stream, either before the registry is opened or only
 * afterwards. */
static void try_the_disk(int how, int may_be_written) {
    for (int i = 0; i < STREAMS; i++) {
        rlibreg_listing listing;
        rlibreg *it = rlibreg_create(), *other = rlibreg_create();
        WANT(!rlibreg_open(it, "disk", READ_WRITE));
        int fd = open("link", how);
        WANT(fd >= 0 && dup2(fd, i) == i && !close(fd));
        WANT(rlibreg_stream_of("disk") == (may_be_written ? i : -1));
        uint32_t status = rlibreg_install(it, library, library_length);
        WANT(may_be_written ? is_refused(status) && is_as_before() && !rlibreg_text(it)[0]
                            : !status && !rlibreg_remove(it, name));
        if (may_be_written)
            WANT(is_refused(rlibreg_update(it, NULL, 0, NULL, 0)) && is_as_before());
        WANT(!rlibreg_get_listing(it, &listing));
        rlibreg_listing_free(&listing);
        rlibreg_close(it);
        for (unsigned flags = 0; flags <= READ_WRITE; flags++) {
            it = rlibreg_create();
            status = rlibreg_open(it, "disk", flags);
            WANT(may_be_written ? is_refused(status) && !is_held("disk") : !status);
            rlibreg_close(it);
        }
        status = rlibreg_format(other, "link", 64, 0);
        WANT(may_be_written ? is_refused(status) : status == RLIBREG_ALREADY_FORMATTED);
        rlibreg_close(other);
        put_back();
        WANT(rlibreg_stream_of("disk") == -1);
        if (!may_be_written) read_disk("disk", before, sizeof before);
    }
}

/* Tries a block device that is opened by another node. Regular files are used for the devices. */
static void try_devices(void) {
    int fd = open("other", O_RDWR | O_CREAT, 0666);
    WANT(fd >= 0 && dup2(fd, 1) == 1 && !close(fd));
    for (unsigned flags = 0; flags <= READ_WRITE; flags++) {
        rlibreg *it = rlibreg_create();
        watch();
        watched.device = 0x701;
        watched.least = 0;
        WANT(is_refused(rlibreg_open(it, "disk", flags)) && !made("lock"));
        unwatch();
        WANT(!rlibreg_open(it, "disk", flags));
        rlibreg_close(it);
    }
    put_back();
    WANT(!unlink("other"));
}

int main(int argc, char **argv) {
    WANT(argc == 3);
    FILE *file = fopen(argv[1], "rb");
    WANT(file && (library_length = fread(library, 1, sizeof library, file)) && !fclose(file));
    name = argv[2];
    /* the output of this test stays apart from the streams that it closes */
    WANT(freopen("/dev/null", "r", stdin) && setvbuf(stdout, NULL, _IOFBF, 4096) == 0);
    keep_streams();
    rlibreg_close(make("disk"));
    WANT(!link("disk", "link"));
    try_closed();
    try_closed_meanwhile("open", 0);
    try_closed_meanwhile("folder", 1);
    try_closed_meanwhile("make", 1);
    read_disk("disk", before, sizeof before);
    try_the_disk(O_WRONLY, 1);
    try_the_disk(O_RDWR | O_APPEND, 1);
    WANT(is_as_before());
    try_the_disk(O_RDONLY, 0);
    try_devices();
    WANT(!strcmp(names_here(), "disk link ") && !unlink("disk") && !unlink("link"));
    puts("streams: closed, closed meanwhile, and the disk itself: nothing is written into a disk");
    return 0;
}

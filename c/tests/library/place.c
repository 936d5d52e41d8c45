/* place LIBRARY NAME shortens, lengthens, replaces and removes the file of a disk, before a change
 * and at each of its system calls. LIBRARY has the SONAME NAME. */
#define _GNU_SOURCE
#include "watched.h"

#include <fcntl.h>
#include <limits.h>
#include <sys/stat.h>
#include <unistd.h>

enum { SECTORS = 128, READ_WRITE = RLIBREG_READ_WRITE };

static char library[1 << 20];
static size_t library_length;
static const char *name;

static rlibreg *open_disk(const char *path) {
    rlibreg *it = rlibreg_create();
    WANT(it && !rlibreg_open(it, path, READ_WRITE));
    return it;
}

static rlibreg *make_disk(const char *path) {
    rlibreg *it = rlibreg_create();
    WANT(it && !rlibreg_format(it, path, SECTORS, 0));
    return it;
}

static uint32_t install(rlibreg *it) {
    return rlibreg_install(it, library, library_length);
}

/* Returns whether a call returned S1 (Device) because the file has changed. */
static int has_changed(const rlibreg *it, uint32_t status, int why) {
    return status == RLIBREG_DEVICE && errno == why && rlibreg_errno(it) == why &&
           !strcmp(rlibreg_text(it), "refused S1 Device\n");
}

/* ---- Changes to the file */

static void cut(void) {
    WANT(!truncate("disk", SECTORS * 256));
}

static void cut_whole(void) {
    WANT(!truncate("disk", 0));
}

static void make_longer(void) {
    WANT(!truncate("disk", SECTORS * 512 + 1));
}

static void replace(void) {
    WANT(!rename("other", "disk"));
}

static void take_away(void) {
    WANT(!unlink("disk"));
}

static void move(void) {
    WANT(!rename("disk", "moved"));
}

static const struct {
    void (*do_it)(void);
    int why, is_cut;
} all[] = { { cut, ESTALE, 1 },     { cut_whole, ESTALE, 1 }, { make_longer, ESTALE, 0 },
            { replace, ESTALE, 0 }, { take_away, ENOENT, 0 }, { move, ENOENT, 0 } };
enum { ALL = sizeof all / sizeof *all };

static void prepare(void) {
    unlink("disk");
    unlink("moved");
    unlink("other");
    rlibreg_close(make_disk("other"));
    rlibreg_close(make_disk("disk"));
}

static long writes_of(const char *log) {
    long count = 0;
    while ((log = strstr(log, "write "))) log++, count++;
    return count;
}

/* Alters the file before a change of the registry, and checks that nothing is written. */
static void try_before(void) {
    for (int i = 0; i < ALL; i++) {
        prepare();
        rlibreg *it = open_disk("disk");
        all[i].do_it();
        watch();
        WANT(has_changed(it, install(it), all[i].why) && !made("write") && !made("sync"));
        unwatch();
        WANT(install(it) == RLIBREG_REOPEN);
        rlibreg_close(it);
    }
}

/* Number of writes and syncs that a change makes before the one at which the file is altered. */
static long due;
static void (*doing)(void);

static void do_it_once(const char *word) {
    if ((!strcmp(word, "write") || !strcmp(word, "sync")) && due-- == 0) doing();
}

static long try_meanwhile(void) {
    long tries = 0;
    for (int i = 0; i < ALL; i++) {
        for (long n = 0;; n++) {
            prepare();
            rlibreg *it = open_disk("disk");
            due = n;
            doing = all[i].do_it;
            watch();
            watched.before = do_it_once;
            uint32_t status = install(it);
            int why = errno;
            unwatch();
            errno = why;
            WANT(due >= 0 ? !status : has_changed(it, status, all[i].why));
            if (due < 0 && n == 0 && all[i].is_cut) WANT(writes_of(watched.log) == 0);
            rlibreg_close(it);
            if (due >= 0) break;
            tries++;
        }
    }
    return tries;
}

/* Reads the disk by call number `number`. If the file was shortened, the call must not read through
 * the map. */
static uint32_t look_by(rlibreg *it, int number) {
    const rlibreg_change install = { RLIBREG_INSTALL, 0, library_length };
    rlibreg_listing listing;
    rlibreg_image image;
    rlibreg_information information;
    rlibreg_findings findings;
    uint8_t digest[RLIBREG_DIGEST_BYTES];
    void *bytes;
    char *text;
    size_t length;
    switch (number) {
    case 0: return rlibreg_get_listing(it, &listing);
    case 1: return rlibreg_bind_program(it, library, library_length, 0, &image);
    case 2: return rlibreg_get_file(it, name, &bytes, &length);
    case 3: return rlibreg_check_libraries(it, &findings);
    case 4: return rlibreg_upgrade(it);
    case 5: return rlibreg_get_digest(it, name, digest);
    case 6: return rlibreg_get_executable(it, library, library_length, 0, &bytes, &length);
    case 7: return rlibreg_get_bindings(it, library, library_length, 0, &text, &length);
    case 8: return rlibreg_update(it, &install, 1, library, library_length);
    case 9:
        return rlibreg_preview_bind(it, &install, 1, library, library_length, library,
                                    library_length, 0, &image);
    }
    return rlibreg_get_info(it, &information);
}

static void try_looks(void) {
    for (int number = 0; number < 11; number++) {
        prepare();
        rlibreg *it = open_disk("disk");
        cut_whole();
        WANT(has_changed(it, look_by(it, number), ESTALE));
        WANT(look_by(it, number) == RLIBREG_REOPEN);
        rlibreg_close(it);
    }
}

/* Checks that a relative path leads from the folder that was current when the disk was opened, even
 * if the process enters another folder later. */
static void try_paths(void) {
    char whole[PATH_MAX + 8];
    prepare();
    WANT(getcwd(whole, PATH_MAX) && !mkdir("folder", 0777) && !symlink("disk", "link"));
    strcat(whole, "/disk");
    const char *paths[] = { "disk", "./folder/../disk", "link", whole };
    for (size_t i = 0; i < sizeof paths / sizeof *paths; i++) {
        for (int makes = 0; makes < 2; makes++) {
            if (makes) unlink("disk");
            if (makes && paths[i][0] == 'l') continue; /* a link to nothing: no disk is made */
            rlibreg *it = makes ? make_disk(paths[i]) : open_disk(paths[i]);
            WANT(!chdir("folder"));
            if (!makes) WANT(!rlibreg_upgrade(it));
            WANT(!install(it) && !rlibreg_remove(it, name) && !chdir(".."));
            take_away();
            WANT(has_changed(it, install(it), ENOENT));
            rlibreg_close(it);
        }
        prepare();
    }
    WANT(!rmdir("folder") && !unlink("link"));
}

int main(int argc, char **argv) {
    WANT(argc == 3);
    FILE *file = fopen(argv[1], "rb");
    WANT(file && (library_length = fread(library, 1, sizeof library, file)) && !fclose(file));
    name = argv[2];
    try_before();
    long tries = try_meanwhile();
    WANT(tries >= 30);
    try_looks();
    try_paths();
    WANT(!unlink("disk") && !unlink("other") && !strcmp(names_here(), ""));
    printf("place: a file that is cut, replaced or gone, before a change and at %ld calls: S1\n",
           tries);
    return 0;
}

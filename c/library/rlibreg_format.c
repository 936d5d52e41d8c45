/* Makes a registry: rlibreg_format of rlibreg.h. */
#define _GNU_SOURCE
#include "rlibreg_registry.h"

#include <errno.h>
#include <sys/mman.h>
#include <unistd.h>

/* Plans a format. Reads only the roots, from the copy `copy`: on a full tmpfs, reading a hole
 * through the map would end the process. */
static uint32_t plan_format(rlibreg *it, const void *copy, size_t length, uint8_t *plan,
                            size_t room) {
    (void)length;
    return rlibreg_plan_format(copy, it->file.length, plan, room, it->text, it->text_room,
                               &it->answer);
}

/* Makes a registry on the open file, if the file has none. Returns a status. */
static uint32_t make_registry(rlibreg *it) {
    const size_t length = it->file.length, front = 4096;
    const int kind = MAP_PRIVATE | MAP_ANONYMOUS | MAP_NORESERVE;
    uint8_t *copy = mmap(NULL, length, PROT_READ, kind, -1, 0);
    if (copy == MAP_FAILED) return rlibreg_say_system(it);
    ssize_t count = mprotect(copy, front, PROT_READ | PROT_WRITE)
                        ? -1
                        : pread(it->file.fd, copy, front, 0);
    uint32_t status = count < 0 ? rlibreg_say_system(it)
                                : rlibreg_make_change(it, plan_format, copy, 0);
    int why = errno;
    munmap(copy, length);
    errno = why;
    return status;
}

/* Makes a registry on a file that exists. Returns a status. */
static uint32_t format_file(rlibreg *it, const char *path, size_t length, unsigned flags) {
    uint32_t status = rlibreg_open_file(it, path, flags);
    if (status) return status;
    if (rlibreg_sync_folder(path)) return rlibreg_say_system(it);
    if (it->file.length != length)
        return rlibreg_say(it, RLIBREG_BAD_GEOMETRY, "refused S6 BadGeometry\n");
    return make_registry(it);
}

/* Makes a registry on a new file, which gets its name when the whole file is on the medium. Returns
 * a status. */
static uint32_t format_new(rlibreg *it, const char *path, size_t length, unsigned flags) {
    struct new_disk new = { .folder = -1 };
    struct place place;
    uint32_t status = RLIBREG_SYSTEM;
    if (!rlibreg_place_take(&place, path))
        status = rlibreg_new_disk_make(&new, path, length, &it->file, flags);
    if (status) {
        rlibreg_say(it, status, "");
    } else {
        it->may_change = 1;
        status = make_registry(it);
        if (!status) status = rlibreg_new_disk_name(&new, &it->file);
        if (status == RLIBREG_DEVICE) rlibreg_say(it, status, "refused S1 Device\n");
        if (status == RLIBREG_SYSTEM) rlibreg_say_system(it);
    }
    rlibreg_new_disk_end(&new, &it->file);
    if (!status)
        it->place = place;
    else
        rlibreg_place_end(&place);
    return status;
}

static int is_system_fault(uint32_t status, int why) {
    return status == RLIBREG_SYSTEM && errno == why;
}

uint32_t rlibreg_format(rlibreg *it, const char *path, uint32_t sectors, unsigned flags) {
    if (it->file.fd >= 0 || sectors < 8 || sectors > 4194304)
        return rlibreg_say(it, RLIBREG_BAD_ARGUMENT, "");
    size_t length = (size_t)sectors * SECTOR;
    unsigned how = RLIBREG_READ_WRITE | (flags & RLIBREG_WAIT);
    int before = rlibreg_begin_call();
    rlibreg_begin_waiting(it);
    uint32_t status = format_file(it, path, length, how);
    if (it->file.fd < 0 && is_system_fault(status, ENOENT))
        status = format_new(it, path, length, how);
    if (is_system_fault(status, EEXIST)) { /* another process was faster */
        rlibreg_let_go(it);
        status = format_file(it, path, length, how);
    }
    if (status) rlibreg_let_go(it);
    rlibreg_end_call(before);
    return status;
}

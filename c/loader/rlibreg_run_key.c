/* Makes the key of a kept image, which identifies the sources of the image. */
#define _GNU_SOURCE
#include "rlibreg_run_kernel.h"
#include "rlibreg_run_kept.h"

#include <fcntl.h>
#include <link.h>
#include <sys/ioctl.h>
#include <sys/sysmacros.h>
#include <sys/vfs.h>

#ifndef STATX_TYPE /* musl before 1.2.5 has neither the call nor its structure */
#include <linux/stat.h>
#endif

#ifndef BLKGETDISKSEQ /* Linux 5.15 */
#define BLKGETDISKSEQ _IOR(0x12, 128, uint64_t)
#endif

/* If a file was changed at least this many seconds ago, its next change gives it another time. */
enum { SETTLED = 2 };

/* ---- States */

enum { TMPFS = 0x01021994 };

/* Finds out the file system of a file. Sets the kind of the file's state, and an id that usually
 * changes when another file system takes the place of this one. Returns -1 if the file's number and
 * times show little about its bytes: over a network, on a file system that another process serves,
 * and on FAT. */
static int see_file_system(int fd, struct state *it) {
    static const uint32_t with_times[] = { 0xef53, /* ext2 to ext4 */ 0x58465342, /* xfs */
                                           0x9123683e, /* btrfs */ 0xf2f52010 /* f2fs */ };
    struct statfs found;
    if (kernel_fstatfs(fd, &found)) return -1;
    memcpy(&it->sequence, &found.f_fsid, sizeof it->sequence);
    if (found.f_type == TMPFS) it->kind = OF_MEMORY;
    for (size_t i = 0; i < sizeof with_times / sizeof *with_times; i++)
        if ((uint32_t)found.f_type == with_times[i]) it->kind = OF_FILE;
    return it->kind ? 0 : -1;
}

int is_compared(const struct state *disk) {
    return disk->kind == OF_DEVICE || disk->kind == OF_MEMORY;
}

static void put_time(uint64_t time[2], struct statx_timestamp it) {
    time[0] = (uint64_t)it.tv_sec;
    time[1] = it.tv_nsec;
}

static int state_of_file(int fd, const struct statx *found, struct state *it) {
    if ((found->stx_mask & STATX_BASIC_STATS) != STATX_BASIC_STATS || see_file_system(fd, it))
        return -1;
    it->device = makedev(found->stx_dev_major, found->stx_dev_minor);
    it->number = found->stx_ino;
    if (found->stx_mask & STATX_BTIME) put_time(it->birth, found->stx_btime);
    put_time(it->modified, found->stx_mtime);
    put_time(it->changed, found->stx_ctime);
    it->length = found->stx_size;
    return 0;
}

static int state_of_device(int fd, const struct statx *found, struct state *it) {
    int64_t length = kernel_end(fd); /* statx doesn't report the length of a device */
    it->kind = OF_DEVICE;
    it->device = makedev(found->stx_rdev_major, found->stx_rdev_minor);
    it->length = (uint64_t)length;
    return length < 0 || kernel_ioctl(fd, BLKGETDISKSEQ, &it->sequence) ? -1 : 0;
}

int state_of(int fd, struct state *it) {
    struct statx found;
    *it = (struct state){ 0 };
    if (kernel_statx(fd, STATX_BASIC_STATS | STATX_BTIME, &found)) return -1;
    if (S_ISREG(found.stx_mode)) return state_of_file(fd, &found, it);
    return S_ISBLK(found.stx_mode) ? state_of_device(fd, &found, it) : -1;
}

/* ---- The key */

/* Copies the build's id into the key, if a note has the id. Returns 0, or -1 if the note doesn't
 * have it. */
static int put_build(const char *note, uint64_t length, struct key *key) {
    Elf64_Nhdr it;
    static const char owner[] = ELF_NOTE_GNU;
    if (length < sizeof it + sizeof owner) return -1;
    memcpy(&it, note, sizeof it);
    if (it.n_type != NT_GNU_BUILD_ID || it.n_namesz != sizeof owner ||
        memcmp(note + sizeof it, owner, sizeof owner))
        return -1;
    if (it.n_descsz < LEAST_BUILD || it.n_descsz > BUILD ||
        it.n_descsz > length - sizeof it - sizeof owner)
        return -1;
    memcpy(key->build, note + sizeof it + sizeof owner, it.n_descsz);
    return 0;
}

/* Searches the notes of a segment for the build's id. Returns 0, or -1 if none has it. */
static int find_build(const char *notes, const ElfW(Phdr) *segment, struct key *key) {
    Elf64_Nhdr it;
    for (uint64_t at = 0; at + sizeof it <= segment->p_memsz;) {
        if (!put_build(notes + at, segment->p_memsz - at, key)) return 0;
        memcpy(&it, notes + at, sizeof it);
        const uint64_t unit = segment->p_align < 4 ? 4 : segment->p_align;
        const uint64_t name = (sizeof it + (uint64_t)it.n_namesz + unit - 1) / unit * unit;
        at += (name + it.n_descsz + unit - 1) / unit * unit;
    }
    return -1;
}

/* The linker computes the id from everything that it links, so nobody has to change it by hand. */
int key_of_loader(struct key *key) {
    extern const char __ehdr_start[] __attribute__((visibility("hidden")));
    const ElfW(Ehdr) *header = (const void *)__ehdr_start;
    const ElfW(Phdr) *one = (const void *)(__ehdr_start + header->e_phoff);
    memset(key->build, 0, BUILD);
    for (int i = 0; i < header->e_phnum; i++, one++)
        if (one->p_type == PT_NOTE && !find_build(__ehdr_start + one->p_offset, one, key)) return 0;
    return -1;
}

static int read_boot(char boot[40]) {
    int fd = kernel_open(AT_FDCWD, "/proc/sys/kernel/random/boot_id", O_RDONLY | O_CLOEXEC);
    memset(boot, 0, 40);
    if (fd < 0) return -1;
    int64_t length = kernel_read(fd, boot, 36, 0);
    kernel_close(fd);
    return length == 36 ? 0 : -1;
}

int key_of_disk(int fd, struct key *key) {
    if (state_of(fd, &key->disk) || read_boot(key->boot)) return -1;
    return kernel_read(fd, key->roots, ROOTS, 0) == ROOTS ? 0 : -1;
}

int key_of_program(const struct program *program, struct key *key) {
    key->may_be_both = (uint64_t)program->may_be_both;
    key->choice = has_fixed_bases() ? AT_FIXED_BASE : AT_RANDOM_BASE;
    if (program->has_base) key->choice = AT_NAMED_BASE;
    key->base = program->has_base ? program->base : 0;
    if (program->found.st_size > MOST_COMPARED && !state_of(program->fd, &key->program) &&
        key->program.kind == OF_FILE)
        return 0;
    key->program = (struct state){ .kind = OF_BYTES, .length = (uint64_t)program->found.st_size };
    return program->found.st_size > MOST_PROGRAM ? -1 : 0;
}

int is_same_key(const struct key *one, const struct key *other) {
    return !memcmp(one, other, sizeof *one);
}

int is_settled(const struct state *it) {
    struct timespec now;
    if (it->kind != OF_FILE && it->kind != OF_MEMORY) return 1;
    if (kernel_clock(&now)) return 0;
    const int64_t since = (int64_t)it->changed[0], until = (int64_t)now.tv_sec - SETTLED;
    return since < until || (since == until && it->changed[1] <= (uint64_t)now.tv_nsec);
}

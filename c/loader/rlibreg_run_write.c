/* Writes the file of an image from its beginning to its end, in few calls. A file system stores the
 * bytes of one call in few large pages, and a start maps, reads and unmaps these faster. */
#define _GNU_SOURCE
#include "rlibreg_run_kept.h"

#include <errno.h>
#include <sys/uio.h>
#include <unistd.h>

enum { MOST_PARTS = 64 };

/* The parts that the next call writes, one after the other. */
struct output {
    int fd, has_failed;
    int count;
    struct iovec parts[MOST_PARTS];
};

/* Removes the first `written` bytes, which have been written. Returns the number of parts that are
 * left. */
static int drop_written(struct iovec **it, int count, size_t written) {
    for (; count && written >= (*it)->iov_len; count--) written -= (*it)++->iov_len;
    if (count) {
        (*it)->iov_base = (uint8_t *)(*it)->iov_base + written;
        (*it)->iov_len -= written;
    }
    return count;
}

static void write_parts(struct output *it) {
    struct iovec *first = it->parts;
    while (it->count && !it->has_failed) {
        ssize_t written = writev(it->fd, first, it->count);
        if (written > 0)
            it->count = drop_written(&first, it->count, (size_t)written);
        else if (!written || errno != EINTR)
            it->has_failed = 1;
    }
}

static void put(struct output *it, const void *bytes, uint64_t length) {
    if (!length) return;
    if (it->count == MOST_PARTS) write_parts(it);
    if (it->has_failed) return;
    it->parts[it->count++] = (struct iovec){ .iov_base = (void *)bytes, .iov_len = length };
}

/* Adds the stretches that are in no page of the image to the output. The bytes of these stretches
 * are part of `bytes`. */
static void put_others(struct output *it, const struct stretch *one, uint64_t count,
                       const uint8_t *bytes) {
    for (const struct stretch *end = one + count; one < end; one++)
        if (!one->address) put(it, bytes + one->at, one->length);
}

static void put_pieces(struct output *it, const struct piece *one, uint64_t count) {
    for (const struct piece *end = one + count; one < end; one++)
        if (one->from) put(it, (const void *)one->address, one->length);
}

/* The file must be on the medium before any process maps it. Otherwise a process might find other
 * bytes in a page that the system couldn't write and had to drop. */
int write_kept(int fd, const struct keeping *it, const struct program *program,
               const struct kept_file *file) {
    static const uint8_t zeros[PAGE];
    const struct counts *counts = &file->head->counts;
    const uint64_t others = place_of_others(counts), pages = place_of_pages(counts);
    struct output output = { .fd = fd };
    put(&output, file->head, others);
    put_others(&output, file->stretches, counts->of_program, program->bytes);
    put_others(&output, file->stretches + counts->of_program, counts->of_disk, it->sources.copy);
    put(&output, zeros, pages - others - counts->others);
    put_pieces(&output, file->pieces, counts->pieces);
    write_parts(&output);
    return output.has_failed || fdatasync(fd) ? -1 : 0;
}

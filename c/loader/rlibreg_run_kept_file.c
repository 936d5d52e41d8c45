/* The format of the file of a kept image. The file may have any bytes, so all of it is checked
 * before it is used. */
#define _GNU_SOURCE
#include "rlibreg_run_kernel.h"
#include "rlibreg_run_kept.h"

#include <sys/mman.h>

const char kept_form[16] = "rlibreg kept 3\n";

uint64_t place_of_others(const struct counts *it) {
    return sizeof(struct head) + it->pieces * sizeof(struct piece) +
           (it->of_program + it->of_disk) * sizeof(struct stretch) +
           it->objects * sizeof(rlibreg_object) +
           (it->initializers + it->finalizers) * sizeof(uint64_t) + it->names;
}

uint64_t place_of_pages(const struct counts *it) {
    return (place_of_others(it) + it->others + PAGE - 1) / PAGE * PAGE;
}

struct kept_file parts_of(void *beginning) {
    struct kept_file it = { .head = beginning };
    const struct counts *counts = &it.head->counts;
    it.pieces = (struct piece *)(it.head + 1);
    it.stretches = (struct stretch *)(it.pieces + counts->pieces);
    it.objects = (rlibreg_object *)(it.stretches + counts->of_program + counts->of_disk);
    it.calls = (uint64_t *)(it.objects + counts->objects);
    it.names = (char *)(it.calls + counts->initializers + counts->finalizers);
    return it;
}

/* Eight bytes of any type. */
typedef uint64_t __attribute__((may_alias)) eight;

/* Mixes eight bytes into a number. Different bytes lead to different results, and so do different
 * values of `number`. */
static uint64_t with_eight(uint64_t number, uint64_t bytes) {
    number = (number ^ bytes) * 0x9e3779b97f4a7c15;
    return number ^ number >> 32;
}

uint64_t check_of(const struct head *head) {
    const uint8_t *at = (const uint8_t *)&head->key;
    const uint8_t *end = (const uint8_t *)head + place_of_others(&head->counts);
    uint64_t number = 1;
    for (; end - at >= (ptrdiff_t)sizeof(eight); at += sizeof(eight))
        number = with_eight(number, *(const eight *)at);
    for (; at < end; at++) number = with_eight(number, *at);
    return number;
}

/* The limits that this function tests also prevent an overflow of the sums in the functions
 * above. */
int is_head(const struct head *it, uint64_t length) {
    const struct counts *counts = &it->counts;
    return !memcmp(it->form, kept_form, sizeof it->form) && it->length == length &&
           counts->pieces <= MOST_PIECES && counts->of_program <= MOST_STRETCHES &&
           counts->of_disk <= MOST_STRETCHES && counts->objects &&
           counts->objects <= MOST_OBJECTS && counts->initializers <= MOST_CALLS &&
           counts->finalizers <= MOST_CALLS && counts->names <= MOST_NAMES &&
           counts->program <= MOST_PROGRAM && counts->others <= MOST_OTHERS &&
           place_of_pages(counts) <= length;
}

/* Returns whether a piece begins at or after `end`, the end of the previous piece, and its pages
 * lie in the file. */
static int is_piece(const struct piece *it, uint64_t end, const struct head *head) {
    const uint64_t last = (uint64_t)1 << 47, both = PROT_WRITE | PROT_EXEC;
    if ((it->address | it->length | it->from) % PAGE || !it->length) return 0;
    if (it->address < end || it->address > last || it->length > last - it->address) return 0;
    if (it->how & ~(uint64_t)(PROT_READ | both)) return 0;
    if ((it->how & both) == both && !head->key.may_be_both) return 0;
    if (!it->from) return 1;
    return it->from >= place_of_pages(&head->counts) && it->from <= head->length &&
           it->length <= head->length - it->from;
}

const struct piece *piece_with(const struct piece *first, size_t count, uint64_t address) {
    while (count > 1) {
        size_t half = count / 2;
        if (first[half].address <= address) first += half;
        count -= half;
    }
    return count && address >= first->address && address - first->address < first->length ? first
                                                                                           : NULL;
}

/* Returns whether the kept file has the bytes of a stretch: in a piece that may be read, or between
 * its beginning and its pages. */
static int is_kept(const struct kept_file *it, const struct stretch *one) {
    const struct counts *counts = &it->head->counts;
    const struct piece *piece = piece_with(it->pieces, counts->pieces, one->address);
    if (one->address)
        return piece && piece->from && piece->how & PROT_READ &&
               one->length <= piece->length - (one->address - piece->address);
    const uint64_t begin = place_of_others(counts), end = place_of_pages(counts);
    return one->from >= begin && one->from <= end && one->length <= end - one->from;
}

/* Returns whether the kept file has the bytes of the stretches, and the stretches lie, in order, in
 * a file or a disk of `length` bytes. */
static int are_in_order(const struct kept_file *file, const struct stretch *it, uint64_t count,
                        uint64_t length) {
    uint64_t end = 0;
    for (const struct stretch *last = it + count; it < last; it++) {
        if (!it->length || it->length > length || it->at > length - it->length || it->at < end ||
            !is_kept(file, it))
            return 0;
        end = it->at + it->length;
    }
    return 1;
}

/* Returns whether the stretches of the program are the whole program, one after the other. */
static int are_whole(const struct kept_file *it) {
    uint64_t at = 0;
    for (uint64_t i = 0; i < it->head->counts.of_program; at += it->stretches[i++].length)
        if (it->stretches[i].at != at) return 0;
    return at == it->head->counts.program;
}

/* Returns whether the stretches are valid. A disk that isn't compared has no stretches. */
static int are_stretches(const struct kept_file *it) {
    const struct counts *counts = &it->head->counts;
    const struct state *disk = &it->head->key.disk;
    return are_in_order(it, it->stretches, counts->of_program, counts->program) &&
           are_whole(it) && (is_compared(disk) || !counts->of_disk) &&
           are_in_order(it, it->stretches + counts->of_program, counts->of_disk, disk->length);
}

static int is_code_of(const struct kept_file *it, uint64_t address) {
    const struct piece *piece = piece_with(it->pieces, it->head->counts.pieces, address);
    return piece && piece->how & PROT_EXEC;
}

int is_whole(const struct kept_file *it) {
    const struct counts *counts = &it->head->counts;
    uint64_t end = PAGE; /* no piece may have the page at 0 */
    for (uint64_t i = 0; i < counts->pieces; i++) {
        if (!is_piece(&it->pieces[i], end, it->head)) return 0;
        end = it->pieces[i].address + it->pieces[i].length;
    }
    if (!are_stretches(it)) return 0;
    if (counts->names && it->names[counts->names - 1]) return 0;
    for (uint64_t i = 1; i < counts->objects; i++)
        if (it->objects[i].name >= counts->names) return 0;
    for (uint64_t i = 0; i < counts->initializers + counts->finalizers; i++)
        if (!is_code_of(it, it->calls[i])) return 0;
    return is_code_of(it, it->objects->entry);
}

/* Reads the arguments of the loader. */
#define _GNU_SOURCE
#include "rlibreg_run_kernel.h"
#include "rlibreg_run_kept.h"

/* Returns the value of a digit, or 16 if `letter` is no digit. */
static unsigned digit_of(char letter) {
    if ('0' <= letter && letter <= '9') return (unsigned)(letter - '0');
    if ('a' <= letter && letter <= 'f') return (unsigned)(letter - 'a' + 10);
    return 'A' <= letter && letter <= 'F' ? (unsigned)(letter - 'A' + 10) : 16;
}

/* Reads a base from digits, which are decimal or, after 0x, hexadecimal. Returns whether the word
 * has only digits, and the base fits into 64 bits. */
static int read_base(const char *word, uint64_t *base) {
    unsigned radix = word[0] == '0' && word[1] == 'x' ? 16 : 10;
    if (radix == 16) word += 2;
    *base = 0;
    if (!*word) return 0;
    for (; *word; word++) {
        if (digit_of(*word) >= radix || *base > (UINT64_MAX - digit_of(*word)) / radix) return 0;
        *base = *base * radix + digit_of(*word);
    }
    return 1;
}

/* Reads the limit of a wait: `forever`, or seconds of at most nine digits. Returns whether the word is
 * one of these. */
static int read_wait(const char *word, int *has_wait, uint32_t *seconds) {
    static const char forever[] = "forever";
    size_t length = 0;
    while (length < sizeof forever && word[length] == forever[length] && word[length]) length++;
    *has_wait = word[length] || forever[length];
    *seconds = 0;
    if (!*has_wait) return 1;
    for (length = 0; word[length]; length++) {
        if (length == 9 || digit_of(word[length]) >= 10) return 0;
        *seconds = *seconds * 10 + digit_of(word[length]);
    }
    return length > 0;
}

/* Sets an option that has a value. Returns whether the value is valid. */
static int take_value(struct program *it, struct keeping *keeping, char letter, const char *value) {
    if (!value) return 0;
    if (letter == 'c') {
        keeping->path = value;
        return 1;
    }
    if (letter == 'w') return read_wait(value, &it->has_wait, &it->wait);
    it->has_base = 1;
    return read_base(value, &it->base);
}

/* Reads the options of the first word, which may have several. A value is the rest of the word, or
 * the next word. Returns whether the options are valid, and sets `taken` to the number of words
 * that they take. */
static int read_word(struct program *it, struct keeping *keeping, char **words, int *taken) {
    int are_good = 1;
    *taken = 1;
    for (const char *at = words[0] + 1; *at; at++) {
        if (*at == 'x') {
            it->may_be_both = 1;
        } else if (*at == 'v') {
            keeping->says_more = 1;
        } else if (*at == 'b' || *at == 'c' || *at == 'w') {
            const char *value = at[1] ? at + 1 : words[1];
            if (!at[1] && value) *taken = 2;
            return take_value(it, keeping, *at, value) && are_good;
        } else {
            are_good = 0;
        }
    }
    return are_good;
}

int read_options(struct program *it, struct keeping *keeping, int argc, char **argv, int *next) {
    int are_good = 1, taken;
    for (*next = 1; *next < argc; *next += taken) {
        const char *word = argv[*next];
        if (word[0] != '-' || !word[1]) break;
        if (word[1] == '-' && !word[2]) {
            *next += 1;
            break;
        }
        are_good &= read_word(it, keeping, argv + *next, &taken);
    }
    return are_good && argc - *next >= 2;
}

/* Reads the arguments of rlibreg-tool that come before its forms (--help, --version, and --wait with
 * a number of seconds) and the option -o with a file, which comes after the name of a form. build.sh
 * links this in place of the calls by which the program's language reads the arguments, so that the
 * language sees neither --wait nor -o. */
#define _GNU_SOURCE
#include "rlibreg_tool_words.h"
#include "rlibreg_program_lock.h"
#include "rlibreg_tool_output.h"

#include <errno.h>
#include <stddef.h>
#include <string.h>
#include <sys/types.h>
#include <unistd.h>

/* MOST_DIGITS is the number of digits of the greatest number of seconds, some thirty years. */
enum { MOST_DIGITS = 9, SECOND = 1000, DONE = 0, FAILED = 3 };

static const char help[] =
    "rlibreg-tool looks after the disk of a registry. DISK is a file or a block device.\n"
    "\n"
    "  info DISK                      prints the numbers of the registry\n"
    "  check DISK                     tests each library\n"
    "  digest DISK                    prints the SHA-256 of each library\n"
    "  file DISK NAME                 writes the bytes of a library\n"
    "  dump [-o FILE] DISK [commit]   writes the script that makes the registry again\n"
    "  replace DISK FILE              replaces a library, even among damaged ones\n"
    "  remove DISK NAME               removes a library, even among damaged ones\n"
    "  update DISK                    makes the changes of standard input at once\n"
    "  executable [-o FILE] DISK PROGRAM BASE\n"
    "                                 writes a bound program as an executable\n"
    "  bindings DISK PROGRAM BASE     prints what the symbols are bound to\n"
    "\n"
    "  --wait SECONDS FORM ..         waits for a locked DISK: a number, or `forever`\n"
    "  --help, --version              print this text, or the version\n"
    "\n"
    "Exit status: 0 done, 1 refused, 2 bad arguments, 3 a file or a stream failed, or DISK is locked,\n"
    "4 no memory. The manual is rlibreg-tool(1).\n";

static const char version[] = "rlibreg-tool " VERSION "\n";

/* Writes a text to standard output. Returns the exit status. */
static int print(const char *text) {
    for (size_t left = strlen(text); left;) {
        ssize_t count = write(STDOUT_FILENO, text, left);
        if (count < 0 && errno == EINTR) continue;
        if (count <= 0) return FAILED;
        text += count;
        left -= (size_t)count;
    }
    return DONE;
}

/* Reads the argument of --wait as milliseconds. Returns whether it is `forever`, or a number of at
 * most MOST_DIGITS digits. */
static int read_wait(const char *word, int64_t *milliseconds) {
    size_t length = strlen(word);
    *milliseconds = RLIBREG_FOREVER;
    if (!strcmp(word, "forever")) return 1;
    if (!length || length > MOST_DIGITS || strspn(word, "0123456789") != length) return 0;
    *milliseconds = 0;
    for (; *word; word++) *milliseconds = *milliseconds * 10 + (*word - '0') * SECOND;
    return 1;
}

/* The numbers of words that the language doesn't see: after the program's name, and after the name
 * of the form. */
static size_t hidden, hidden_later;

int rlibreg_tool_words(int argc, char **argv) {
    int64_t milliseconds;
    if (argc == 2 && !strcmp(argv[1], "--help")) return print(help);
    if (argc == 2 && !strcmp(argv[1], "--version")) return print(version);
    if (argc > 2 && !strcmp(argv[1], "--wait") && read_wait(argv[2], &milliseconds)) {
        rlibreg_wait_for_lock(milliseconds);
        hidden = 2;
    }
    return -1;
}

/* Returns the file of -o, or null if the arguments don't have it. */
static const char *output_of(int argc, char **argv) {
    if (argc < (int)hidden + 4 || strcmp(argv[hidden + 2], "-o")) return NULL;
    const char *form = argv[hidden + 1];
    return strcmp(form, "executable") && strcmp(form, "dump") ? NULL : argv[hidden + 3];
}

int rlibreg_run_tool(int argc, char **argv, int (*run)(int, char **, char **), char **environment) {
    const char *path = output_of(argc, argv);
    if (!path) return run(argc, argv, environment);
    int status = rlibreg_output_begin(path);
    if (status) return status;
    hidden_later = 2;
    status = run(argc, argv, environment);
    return rlibreg_output_end(status, !strcmp(argv[hidden + 1], "executable"));
}

size_t __real_rattle_arg_count(void);
size_t __wrap_rattle_arg_count(void);
ssize_t __real_rattle_arg(size_t number, void *buffer, size_t length);
ssize_t __wrap_rattle_arg(size_t number, void *buffer, size_t length);

size_t __wrap_rattle_arg_count(void) {
    return __real_rattle_arg_count() - hidden - hidden_later;
}

ssize_t __wrap_rattle_arg(size_t number, void *buffer, size_t length) {
    size_t skipped = number < 1 ? 0 : number < 2 ? hidden : hidden + hidden_later;
    return __real_rattle_arg(number + skipped, buffer, length);
}

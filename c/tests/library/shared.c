/* shared DISK is linked only with the shared library. It makes a disk and lists it. Then it prints
 * the library's names of the tests of a file, and the library's answer to a number that no test
 * has. */
#include "rlibreg.h"

#include <stdio.h>

int main(int argc, char **argv) {
    rlibreg_listing listing;
    rlibreg *it = rlibreg_create();
    if (argc != 2 || !it || rlibreg_version() != RLIBREG_VERSION) return 1;
    if (rlibreg_format(it, argv[1], 64, 0) || rlibreg_get_listing(it, &listing)) return 2;
    fputs(rlibreg_text(it), stdout);
    rlibreg_listing_free(&listing);
    rlibreg_close(it);
    for (uint32_t number = 1; number <= 34; number++) puts(rlibreg_file_refusal_name(number));
    return rlibreg_file_refusal_name(0) != rlibreg_file_refusal_name(34);
}

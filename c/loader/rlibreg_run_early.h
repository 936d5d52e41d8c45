/* The function that the loader's entry calls before the entry of the C library. */
#ifndef RLIBREG_RUN_EARLY_H
#define RLIBREG_RUN_EARLY_H

/* Starts the program from its kept image. Returns only if this is impossible; in this case nothing
 * has changed. */
void rlibreg_run_early(int argc, char **argv);

#endif

/* If no loader calls the initializers and finalizers of a program's libraries, the program makes
 * these calls itself, before and after its own functions.
 */
#ifndef RLIBREG_BEGIN_H
#define RLIBREG_BEGIN_H

#pragma GCC visibility push(hidden)

/* Calls the functions of the program's DT_PREINIT_ARRAY and the libraries' initializers with these
 * arguments, in the order of rlibreg-run. Ends the process if the libraries can't be found, or if
 * one of them names a function that isn't in its own code. */
void rlibreg_initialize(int count, char **words, char **environment);

/* Calls the libraries' finalizers, in the order opposite to that of the initializers. */
void rlibreg_finalize(void);

#pragma GCC visibility pop

#endif

/* The words of rlibreg-tool that come before its forms. */
#ifndef RLIBREG_TOOL_WORDS_H
#define RLIBREG_TOOL_WORDS_H

/* Carries out --help and --version, and takes --wait. Returns the exit status, or -1 if the program
 * has to go on. */
int rlibreg_tool_words(int argc, char **argv);

/* Calls `run`, the program's own `main`. With -o, its output goes to a file, which gets its name if the
 * form ends with status 0. Returns the exit status. */
int rlibreg_run_tool(int argc, char **argv, int (*run)(int, char **, char **), char **environment);

#endif

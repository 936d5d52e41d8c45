/* The file of rlibreg-tool's option -o. */
#ifndef RLIBREG_TOOL_OUTPUT_H
#define RLIBREG_TOOL_OUTPUT_H

/* rlibreg_output_begin makes a file under another name in the folder of `path`, and makes it the
 * standard output. rlibreg_output_end gives the file its own name if `status`, the exit status of the
 * form, is 0, and otherwise removes the file. With `may_run`, everyone who may read the file may also
 * execute it. Each returns the exit status, which is 3 after a message if the call fails. */
int rlibreg_output_begin(const char *path);
int rlibreg_output_end(int status, int may_run);

#endif

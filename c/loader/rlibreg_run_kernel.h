/* Calls of the kernel, and C's functions on bytes, without a C library. The parts of the loader
 * that run before the C library is set up (rlibreg_run_early.c) use only these. Nothing here is for
 * users. */
#ifndef RLIBREG_RUN_KERNEL_H
#define RLIBREG_RUN_KERNEL_H

#include <stddef.h>
#include <stdint.h>
#include <string.h>
#include <sys/stat.h>
#include <time.h>

struct statfs;
struct statx;

/* gcc inserts calls of these functions, so they have C's names. A C library chooses its own
 * versions for the processor only while it is set up. */
void *memcpy(void *to, const void *from, size_t length) __asm__("rlibreg_kernel_copy");
void *memset(void *to, int byte, size_t length) __asm__("rlibreg_kernel_fill");
int memcmp(const void *one, const void *other, size_t length) __asm__("rlibreg_kernel_compare");
size_t strlen(const char *text) __asm__("rlibreg_kernel_length");

/* Each call returns the result of the kernel. If the call fails, this is the negated number of the
 * error. */
int kernel_open(int folder, const char *path, int flags);
int kernel_close(int fd);
int kernel_flags(int fd);
int kernel_set_flags(int fd, int flags);
int kernel_remove(int folder, const char *name);
int kernel_fstat(int fd, struct stat *found);
int kernel_statx(int fd, unsigned wanted, struct statx *found);
int kernel_fstatfs(int fd, struct statfs *found);
int kernel_ioctl(int fd, unsigned long request, void *argument);
int kernel_may_execute(int fd); /* returns 0 if the user may execute the file */
int64_t kernel_end(int fd);     /* length of a file or a device in bytes */
int64_t kernel_read(int fd, void *to, size_t length, uint64_t at);
int64_t kernel_folder(char *to, size_t room); /* writes the path of the current folder; returns its
                                               * length with the byte 0 */
int64_t kernel_map(uint64_t at, uint64_t length, int how, int kind, int fd, uint64_t from);
int kernel_unmap(uint64_t at, uint64_t length);
int kernel_advise(uint64_t at, uint64_t length, int how);
int kernel_clock(struct timespec *now);
int64_t kernel_stack_limit(void); /* in bytes; INT64_MAX if there is no limit */
void kernel_take_name(const char *name);
void kernel_take_thread(void *block);
_Noreturn void kernel_end_process(int status, const char *message);

/* Returns whether the user wants the same addresses at each start, as debuggers do. */
int has_fixed_bases(void);

#endif

/* filtered ERRNO COMMAND [WORD].. runs a command whose calls of fcntl are refused with ERRNO, as a
 * filter of system calls (seccomp) may refuse them. Exits with status 99 if there can't be a
 * filter. */
#define _GNU_SOURCE
#include <errno.h>
#include <linux/filter.h>
#include <linux/seccomp.h>
#include <stddef.h>
#include <stdio.h>
#include <stdlib.h>
#include <string.h>
#include <sys/prctl.h>
#include <sys/syscall.h>
#include <unistd.h>

enum { NO_FILTER = 99, NOT_FOUND = 127 };

static int refuse_fcntl(unsigned why) {
    struct sock_filter steps[] = {
        BPF_STMT(BPF_LD | BPF_W | BPF_ABS, offsetof(struct seccomp_data, nr)),
        BPF_JUMP(BPF_JMP | BPF_JEQ | BPF_K, SYS_fcntl, 0, 1),
        BPF_STMT(BPF_RET | BPF_K, SECCOMP_RET_ERRNO | why),
        BPF_STMT(BPF_RET | BPF_K, SECCOMP_RET_ALLOW),
    };
    struct sock_fprog filter = { sizeof steps / sizeof *steps, steps };
    return prctl(PR_SET_NO_NEW_PRIVS, 1, 0, 0, 0) ||
           prctl(PR_SET_SECCOMP, SECCOMP_MODE_FILTER, &filter);
}

int main(int argc, char **argv) {
    if (argc < 3) return NOT_FOUND;
    if (refuse_fcntl((unsigned)atoi(argv[1]))) {
        fprintf(stderr, "filtered: %s\n", strerror(errno));
        return NO_FILTER;
    }
    execvp(argv[2], argv + 2);
    fprintf(stderr, "filtered: %s: %s\n", argv[2], strerror(errno));
    return NOT_FOUND;
}

/* within no-words|no-gain|secure COMMAND.. starts a command. With no-words it has no argument, not
 * even its own name. With no-gain no memory that was written may be executed later. With secure the
 * command is started as the kernel starts a program that has more rights than its user, which
 * AT_SECURE shows. */
#define _GNU_SOURCE
#include <stdio.h>
#include <string.h>
#include <sys/prctl.h>
#include <unistd.h>

#ifndef PR_SET_MDWE
#define PR_SET_MDWE 65
#endif

int main(int argc, char **argv) {
    char *none[] = { NULL };
    if (argc < 3) return 2;
    int has_words = !!strcmp(argv[1], "no-words");
    if ((!strcmp(argv[1], "no-gain") && prctl(PR_SET_MDWE, 1, 0, 0, 0)) ||
        (!strcmp(argv[1], "secure") && setresgid(getgid() + 1, (gid_t)-1, (gid_t)-1))) {
        puts("this kernel hasn't got that");
        return 0;
    }
    execve(argv[2], has_words ? argv + 2 : none, environ);
    perror(argv[2]);
    return 2;
}

/* killed NUMBER COMMAND.. runs a command, and kills it before call NUMBER of the system, counted
 * from 0. Then it exits with status 77, and otherwise with the command's status. */
#define _GNU_SOURCE
#include <signal.h>
#include <stdio.h>
#include <stdlib.h>
#include <sys/ptrace.h>
#include <sys/wait.h>
#include <unistd.h>

enum { KILLED = 77, CALL = SIGTRAP | 0x80 };

static void fail(const char *what) {
    perror(what);
    exit(2);
}

/* Lets a process run to the next call of the system, or to the end of one. Returns its wait
 * status. */
static int next_stop(pid_t process, int signal) {
    int status;
    if (ptrace(PTRACE_SYSCALL, process, NULL, (void *)(long)signal)) fail("ptrace");
    if (waitpid(process, &status, 0) != process) fail("waitpid");
    return status;
}

static pid_t begin(char **command) {
    int status;
    pid_t process = fork();
    if (process < 0) fail("fork");
    if (!process) {
        if (ptrace(PTRACE_TRACEME, 0, NULL, NULL)) fail("ptrace");
        execvp(command[0], command);
        fail(command[0]);
    }
    if (waitpid(process, &status, 0) != process || !WIFSTOPPED(status)) exit(2);
    long options = PTRACE_O_TRACESYSGOOD | PTRACE_O_EXITKILL;
    if (ptrace(PTRACE_SETOPTIONS, process, NULL, (void *)options)) fail("ptrace");
    return process;
}

int main(int argc, char **argv) {
    if (argc < 3) return 2;
    pid_t process = begin(argv + 2);
    long number = atol(argv[1]);
    int status = 0, is_in_call = 0, signal = 0;
    while (status = next_stop(process, signal), WIFSTOPPED(status)) {
        int is_call = WSTOPSIG(status) == CALL;
        signal = is_call ? 0 : WSTOPSIG(status);
        if (!is_call) continue;
        is_in_call = !is_in_call;
        if (!is_in_call || number-- > 0) continue;
        kill(process, SIGKILL);
        waitpid(process, &status, 0);
        return KILLED;
    }
    return WIFEXITED(status) ? WEXITSTATUS(status) : 2;
}

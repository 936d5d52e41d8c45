/* A library whose constructor makes many kinds of calls of the program's C library. */
#include <pthread.h>
#include <stdio.h>
#include <stdlib.h>
#include <string.h>
#include <sys/wait.h>
#include <unistd.h>

static pthread_mutex_t lock = PTHREAD_MUTEX_INITIALIZER;
static pthread_t thread;
static pid_t maker;
static int joined, answer, given;

static void *work(void *it) {
    pthread_mutex_lock(&lock);
    answer = *(int *)it + 1;
    pthread_mutex_unlock(&lock);
    return it;
}

/* The child takes the other branch, and the parent gets the child's status. */
static int of_child(void) {
    int status;
    pid_t child = fork();
    if (!child) _exit(getpid() == maker ? 1 : 9);
    return waitpid(child, &status, 0) == child && WIFEXITED(status) ? WEXITSTATUS(status) : -1;
}

static void __attribute__((constructor)) begin(int count, char **words, char **variables) {
    given = count == 2 && !strcmp(words[1], "word") && variables && getenv("GIVEN");
    maker = getpid();
    setenv("SET", getenv("GIVEN") ? getenv("GIVEN") : "nothing", 1);
    joined = 40;
    pthread_create(&thread, NULL, work, &joined);
    printf("child %d ", of_child());
    if (getenv("EXIT")) exit(atoi(getenv("EXIT")));
}

static void __attribute__((destructor)) end(void) { printf("busy ends\n"); }

int busy(void) {
    void *it;
    return pthread_join(thread, &it) || it != &joined ? -1 : given ? answer : 0;
}

/* Thread-local data that a program and two libraries share. */
struct record {
    int number;
    const char *text;
    int *other;
};
extern __thread struct record shared; /* a library's */
extern __thread int of_program;
extern _Thread_local char name[16] __attribute__((tls_model("initial-exec")));

int count_in_library(void);
long misaligned_in_library(void);
int add_to_shared(int);

/* A library that uses the functions and data of libone.so, and has a pointer to each in its own
 * data. */
extern int one(void);
extern int one_count;
extern int nobody(void) __attribute__((weak));
int (*const two_calls[])(void) = { one, nobody };
int *two_counts = &one_count;
static int zeros[300000];

int two(void) {
    zeros[299999] = two_calls[0]() + one();
    return zeros[299999] + *two_counts + zeros[0];
}

int nobody_is_there(void) {
    return two_calls[1] != 0 || nobody;
}

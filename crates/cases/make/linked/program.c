/* The program: it exports what its libraries call, and replaces a weak function. */
int top(int), functions(int), twice(int);
extern int amount;
extern int nowhere(void) __attribute__((weak));
int report(int n) { return n; }
int doubled = 10;
int (*work)(int) = top;
int *amount_of_all = &amount;
int (*maybe)(void) = nowhere;
int _start(void) { return work(twice(*amount_of_all)) + functions(doubled) + (nowhere ? nowhere() : 0); }

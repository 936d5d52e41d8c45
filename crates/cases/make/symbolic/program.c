/* The program: it defines names that a library calls, some of which libraries define too, and it
 * names functions that all of them have. */
int twice(int), shared(void), guarded(int), work(int);
extern int amount, doubled;
int report(int n) { return n; }
int (*of_twice)(int) = twice;
int (*of_shared)(void) = shared;
int (*of_guarded)(int) = guarded;
int (*of_work)(int) = work;
int (*of_report)(int) = report;
int *of_amount = &amount;
int *of_doubled = &doubled + 1;
int _start(void) { return work(*of_amount) + twice(doubled) + shared() + guarded(1); }

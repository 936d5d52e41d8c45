/* A library that defines the names of base and others, with words of all of them. It is linked in
 * several ways. */
int in_base(void), report(int);
extern int numbers[4], fixed_datum;
extern int absent(void) __attribute__((weak));
int amount = 8;
int twice(int n) { return n * 2; }
__attribute__((weak)) int doubled = 16;
__attribute__((weak)) int shared(void) { return 5; }
__attribute__((visibility("protected"))) int guarded(int n) { return n + 1; }
__attribute__((visibility("hidden"))) int kept(int n) { return n + 2; }
int *own_amount = &amount;
int *own_doubled = &doubled;
int (*own_twice)(int) = twice;
int (*own_shared)(void) = shared;
int (*own_guarded)(int) = guarded;
int (*own_kept)(int) = kept;
int *own_fixed = &fixed_datum;
int *last = &numbers[3];
int (*its)(void) = in_base;
int (*reported)(int) = report;
int (*optional)(void) = absent;
int work(int n) { return twice(n) + amount + doubled + shared() + guarded(n) + in_base() + report(n) + (absent ? absent() : 0); }

/* A library that needs base. It has a strong definition of a name that base defines as weak,
 * protected symbols, and weak references. */
extern int amount, numbers[4];
int twice(int);
extern int absent(void) __attribute__((weak));
extern int absent_datum __attribute__((weak));
extern int hidden_and_weak __attribute__((weak, visibility("hidden")));
int shared(void) { return 2; }
int doubled = 4;
int middle_count;
__attribute__((visibility("protected"))) int guarded(int n) { return n + 1; }
__attribute__((visibility("protected"))) int guarded_datum = 5;
__attribute__((visibility("hidden"))) int kept(int n) { return n + 2; }
int (*guard)(int) = guarded;
int *guard_datum = &guarded_datum;
int (*keep)(int) = kept;
int (*optional)(void) = absent;
int *optional_datum = &absent_datum;
int *last = &numbers[3];
int *count = &middle_count;
int middle(int n) { return twice(amount) + shared() + guarded(n) + (absent ? absent() : 0) + (&hidden_and_weak ? 1 : 0); }

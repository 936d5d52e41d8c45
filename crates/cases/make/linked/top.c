/* A library that needs middle and base, and defines names that both have. */
int middle(int), twice(int), guarded(int), in_base(void), report(int);
extern int amount, doubled;
__attribute__((visibility("protected"))) int guarded_datum = 6;
int shared(void) { return 3; }
int (*calls[])(int) = {middle, twice, guarded, report};
int *amounts[] = {&amount, &doubled, &guarded_datum, &amount + 1};
int top(int n) { return middle(n) + twice(n) + guarded(n) + in_base() + report(amount) + shared(); }

/* A library that the others need: data, an array into which addresses are written, and weak and
 * strong functions. */
int amount = 7;
int numbers[4] = {1, 2, 3, 4};
int *third = &numbers[2];
int twice(int n) { return n + n; }
__attribute__((weak)) int shared(void) { return 1; }
__attribute__((weak)) int doubled = 2;
int (*operations[])(int) = {twice, 0, twice};
int in_base(void) { return shared() + twice(doubled); }

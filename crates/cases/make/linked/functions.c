/* A library whose functions are bound within it (-Bsymbolic-functions), unlike its data. */
int twice(int n) { return n * 2; }
int amount = 8;
int *own_amount = &amount;
int (*own_twice)(int) = twice;
int functions(int n) { return twice(n) + amount + own_twice(n); }

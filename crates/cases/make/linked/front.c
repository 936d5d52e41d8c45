/* A preload: it has a function and a datum that other libraries have too. */
int top(int);
int amount = 9;
int twice(int n) { return n << 1; }
int *front_amount = &amount;
int (*front_top)(int) = top;

/* Prints the answers of two libraries whose inner functions have the same name. */
#include <stdio.h>

int also_one(void);
int also_two(void);

int main(void) { return printf("one %d two %d\n", also_one(), also_two()) < 0; }

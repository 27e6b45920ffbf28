#include <stdio.h>
int two(int);
int main(void) { return printf("%d\n", two(1)) != 2; }

#include <math.h>
int two(int n) { return (int) sqrt(n + 3); }

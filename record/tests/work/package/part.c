#include "config.h"
int part(void) { return 0; }

#include "h.h"
int f(char *y, int x) { return f(y, 1); }

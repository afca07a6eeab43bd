#include "h.h"
int f(int x, char *y) { return f(1, y); }

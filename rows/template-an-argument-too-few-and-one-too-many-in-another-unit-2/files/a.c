#include "h.h"
int f(int x, int y) { return x; }

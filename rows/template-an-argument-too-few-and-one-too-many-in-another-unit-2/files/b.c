#include "h.h"
int v(void) { return f(1, 2) + f(3, 4, 5); }

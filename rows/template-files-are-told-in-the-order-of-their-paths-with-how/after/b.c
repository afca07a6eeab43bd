#include "h.h"
int v(void) { return f("b", 1) + f("c", 2); }

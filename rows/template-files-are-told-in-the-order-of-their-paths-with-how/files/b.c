#include "h.h"
int v(void) { return f(1, "b") + f(2, "c"); }

#include "inc/h.h"
int v(void) { return f(1, 2); }

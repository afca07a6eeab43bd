#include "h.h"
int f(int a, char *b) { return f(a, b); }

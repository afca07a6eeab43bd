#include "h.h"
int f(char *b, int a) { return f(b, a); }

#include "h.h"
int f(int p) { return 0; }
int x;

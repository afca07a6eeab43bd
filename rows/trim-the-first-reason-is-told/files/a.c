#include "h.h"
#undef A
int x;

#include "h.h"
int *x = &y;

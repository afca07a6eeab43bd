#include "common.h"
#include "made.h"
int absent(void) { return add(MADE); }

#include "h.h"
int n(void) { return count; }

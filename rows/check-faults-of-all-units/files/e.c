#include "h.h"
int k(void) { return X(1); }

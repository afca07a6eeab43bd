#include "h.h"
int sum(void) { return N(first) * N(last); }

#include "big.h"
#include "next.h"
int five(void) { return NAME + first; }

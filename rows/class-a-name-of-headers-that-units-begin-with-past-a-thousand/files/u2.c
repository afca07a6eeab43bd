#include "big.h"
#include "next.h"
int two(void) { return a + *b; }

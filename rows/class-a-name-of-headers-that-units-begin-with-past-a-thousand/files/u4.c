#include "big.h"
#include "next.h"
#include "next.h"
int four(void) { return c[0] + first; }

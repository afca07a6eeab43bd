#include "big.h"
#include "next.h"
int one(void) { return NAME; }

#include "big.h"
#include "next.h"
#undef NAME
#define NAME b
int three(void) { return *NAME; }

#include "big.h"
#include <next.h>
#if __COUNTER__ == 3
int right;
#else
int wrong;
#endif

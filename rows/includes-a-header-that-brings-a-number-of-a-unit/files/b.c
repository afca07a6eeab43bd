#include "h.h"
#include "i.h"
int x = __COUNTER__;

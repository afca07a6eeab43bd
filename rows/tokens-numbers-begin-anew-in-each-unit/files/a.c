#include "h.h"
int a = __COUNTER__;

int b = __COUNTER__;
#include "h.h"
#include "h.h"

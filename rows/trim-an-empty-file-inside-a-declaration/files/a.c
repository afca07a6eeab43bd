int
#include "h.h"
x;

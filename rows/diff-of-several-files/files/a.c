#include "h.h"
int here = LIMIT;

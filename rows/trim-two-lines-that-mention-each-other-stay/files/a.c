#include "g.h"
#include "h.h"
int x;

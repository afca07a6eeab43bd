#include "h.h"
int x = SUB(1, 2);

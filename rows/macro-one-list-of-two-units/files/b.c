#include "h.h"
int y = SUB(7, 8);

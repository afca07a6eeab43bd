#include "h.h"
int y = SUB(8, 7);

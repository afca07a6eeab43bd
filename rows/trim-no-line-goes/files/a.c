#include "h.h"
int x = A;

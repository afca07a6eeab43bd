#include "h.h"
#include "h.h"
int x;

#include "h.h"
int z = sizeof y;

#include "h.h"
int b = sizeof h;

#include "h.h"
int a;
#define A 1

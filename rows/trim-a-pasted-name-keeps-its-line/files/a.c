#include "h.h"
#define CAT(a, b) a##b
int CAT(ON, LY);

#define H "h.h"
#include H
int x;

#include "g.h"
int x;

#include "ro/g.h"
int x = G;

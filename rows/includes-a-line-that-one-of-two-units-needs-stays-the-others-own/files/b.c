#include "k.h"
int z = sizeof y;

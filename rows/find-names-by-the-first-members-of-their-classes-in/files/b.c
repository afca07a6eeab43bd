#include "lib/h.h"
int b;

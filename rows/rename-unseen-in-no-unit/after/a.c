#include "h.h"
int total;

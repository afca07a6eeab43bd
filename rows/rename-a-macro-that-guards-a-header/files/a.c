#include "h.h"
#include "h.h"
int n;

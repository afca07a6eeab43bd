#include "h.h"
int n;

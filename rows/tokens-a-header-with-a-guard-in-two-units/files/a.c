#include "h.h"
int a;

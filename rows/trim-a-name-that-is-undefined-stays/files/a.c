#include "h.h"
int A;

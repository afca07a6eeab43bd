#include "o.h"
int b;

#include "h.h"
int count;

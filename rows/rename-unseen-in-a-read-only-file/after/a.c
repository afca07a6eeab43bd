#include "lib/l.h"
int total;

#include "lib/l.h"
int count;

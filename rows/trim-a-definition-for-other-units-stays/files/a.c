#include "i.h"
int x;

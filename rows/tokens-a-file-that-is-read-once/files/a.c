#include "o.h"
int a;
#include "./o.h"
int b;

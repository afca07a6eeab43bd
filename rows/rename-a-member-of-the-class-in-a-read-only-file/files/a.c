#include "inc/h.h"
int n;

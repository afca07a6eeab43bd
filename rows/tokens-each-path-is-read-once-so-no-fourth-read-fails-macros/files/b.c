#include "h.h"
#ifdef A
wrong
#endif
int b;

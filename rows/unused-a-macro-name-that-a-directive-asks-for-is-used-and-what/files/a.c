#include "h.h"
#ifdef A
int x;
#endif

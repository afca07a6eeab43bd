#include "big.h"
#ifdef NEXT
int not_here;
#endif
int six(void) { return NAME + later; }

#include "h.h"
int g(void) { return main(1, 0); }

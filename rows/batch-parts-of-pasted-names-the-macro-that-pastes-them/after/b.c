#include "h.h"
int sum(void) { return PICK(beginning) * PICK(s); }

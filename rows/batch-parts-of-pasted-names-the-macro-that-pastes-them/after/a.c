#include "h.h"
int beginning_number = 1, s_number = 2;
int get(void) { return PICK(beginning) + PICK(s); }

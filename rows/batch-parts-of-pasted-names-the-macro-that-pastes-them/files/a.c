#include "h.h"
int first_n = 1, last_n = 2;
int get(void) { return N(first) + N(last); }

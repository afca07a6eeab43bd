in_d1
#include_next <h.h>

in_d3
#include_next <h.h>

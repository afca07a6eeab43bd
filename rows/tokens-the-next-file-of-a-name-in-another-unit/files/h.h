beside
#include_next <h.h>

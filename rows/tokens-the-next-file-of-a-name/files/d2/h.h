in_d2
#include_next "h.h"

int z;
#include "h.h"

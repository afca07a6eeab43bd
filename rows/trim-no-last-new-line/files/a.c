int x;
#include "h.h"
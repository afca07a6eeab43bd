#include "h.h"
#define G 1

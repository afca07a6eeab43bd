#define TWO (ONE + 1)
#include "q.h"

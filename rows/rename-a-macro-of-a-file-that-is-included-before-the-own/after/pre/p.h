#define DUO (ONE + 1)
#include "q.h"

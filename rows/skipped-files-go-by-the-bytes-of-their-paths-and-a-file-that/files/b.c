#include "Z.h"
#if 0
b
#endif

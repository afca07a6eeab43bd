#include "i.h"
#define B

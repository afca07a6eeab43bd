#include "h.h"
static int g;

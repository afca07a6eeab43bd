#include "common.h"
int logged(void) { return LOG("start"); }

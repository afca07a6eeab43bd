#include "h.h"
char *s = "ONLY";

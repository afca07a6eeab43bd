#define H "h.h"
#include H
#include "k.h"

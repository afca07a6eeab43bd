#include "common.h"
int bounded(int value) { return clamp(value, 0, kept.count); }

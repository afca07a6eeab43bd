#include "k.h"
int x;

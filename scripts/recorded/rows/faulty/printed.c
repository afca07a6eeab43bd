#include "common.h"
int printed(int value) PRINTED;

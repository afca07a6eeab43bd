#define DATA
int a[] = {
#include "g.h"
};

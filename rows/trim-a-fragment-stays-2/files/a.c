int a[] = {
#include "t.inc"
};

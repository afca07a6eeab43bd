#define NAME(x) <x.h>
#include NAME(sys)
int q;

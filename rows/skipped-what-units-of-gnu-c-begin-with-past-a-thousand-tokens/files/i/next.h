MANY(extern int c; extern int *d;)
#if __COUNTER__ == 1
#include_next <next.h>
#endif

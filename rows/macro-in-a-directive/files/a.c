#define SUB(a, b) ((a) - (b))
#if SUB(2, 1)
int x;
#endif

int x;
#define X x
int *p = &X;

int z;
#define X z
int *p = &X;

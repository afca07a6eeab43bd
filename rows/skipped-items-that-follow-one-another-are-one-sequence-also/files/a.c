#if 0
int a;
#define B 1

int c;
#endif
#if 1
#elif X
int d;
#endif

#ifdef __COUNTER__
#define ID(x) x x
#define J(x, y) x ## y
#define K(x, y) J(x, y)
int a = __COUNTER__, b = ID(+ __COUNTER__), K(c, __COUNTER__);
#if __COUNTER__ == 3
int d = __COUNTER__;
#endif
#endif
int e;

int f(int a, int b);
#if 0
don't f(1, 2)
#endif
int r(void) { return f(2, 1); }

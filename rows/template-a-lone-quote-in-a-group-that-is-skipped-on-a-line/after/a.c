int f(int b, int a);
#if 0
don't f(1, 2)
#endif
int r(void) { return f(1, 2); }

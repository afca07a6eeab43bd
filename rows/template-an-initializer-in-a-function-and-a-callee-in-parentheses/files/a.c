static int f(int a, int b);
int v(void) { int (*p)(int, int) = &f; return f(1, 2); }

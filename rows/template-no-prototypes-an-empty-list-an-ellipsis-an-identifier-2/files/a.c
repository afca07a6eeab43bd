int f(int a, int b, ...);
int v(void) { return f(1, 2, 3); }

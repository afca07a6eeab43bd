int f(int a, int b);
int t(void) { return f(1); }

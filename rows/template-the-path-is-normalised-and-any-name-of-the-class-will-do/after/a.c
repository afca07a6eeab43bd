int g(int n);
int f(int b, int a);
int f(int b, int a) { return a - b; }
int t(void) { return f(g(3), f(2, 1)); }

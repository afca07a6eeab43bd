int g(int n);
int f(int a, int b);
int f(int a, int b) { return a - b; }
int t(void) { return f(f(1, 2), g(3)); }

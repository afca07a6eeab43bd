int f(int a, int b) { return a - b; }
int g(int n) { return ({ f(n, 1); }); }
int h(int n) { return f(1, ({ n; })); }

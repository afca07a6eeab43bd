int f(int a, int b) { return a - b; }
int g(int n) { h(n); return f(h(1), h(2)); }
int k(int n) { return f(m(1), m(2)); }

static int g(int n) { return n; }
int m(int n) { return g(n); }

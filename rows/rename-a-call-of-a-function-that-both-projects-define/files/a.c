int k(int n) { return g(n); }

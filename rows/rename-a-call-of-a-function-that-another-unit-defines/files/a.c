int k(int n) { return g(n) + g(1); }

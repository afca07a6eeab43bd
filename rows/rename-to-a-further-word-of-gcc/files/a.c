int f(int k) { return k; }

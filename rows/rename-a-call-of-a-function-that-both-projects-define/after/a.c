int k(int n) { return leave(n); }

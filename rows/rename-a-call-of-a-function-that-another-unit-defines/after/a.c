int k(int n) { return leave(n) + leave(1); }

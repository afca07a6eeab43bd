int k(void) { return g(1); }

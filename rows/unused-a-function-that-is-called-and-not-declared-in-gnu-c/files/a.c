int k(void) { return g(1) + h(2); }

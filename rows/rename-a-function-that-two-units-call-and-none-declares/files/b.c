void m(void) { g(2); }

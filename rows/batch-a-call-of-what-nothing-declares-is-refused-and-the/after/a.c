void go(void) { g(1); }

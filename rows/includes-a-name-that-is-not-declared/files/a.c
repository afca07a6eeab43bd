int f(void) { return b; }

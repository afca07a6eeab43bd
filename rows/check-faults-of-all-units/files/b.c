int g(void) { return h; }

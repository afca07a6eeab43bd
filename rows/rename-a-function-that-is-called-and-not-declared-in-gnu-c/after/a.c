int k(void) { return gone(1); }

int g(int x) { return x; }
int unused_one(void) { return 0; }

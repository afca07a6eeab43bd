int x;
int v(void) { return x; }

int a;
int f(void) { return c; }

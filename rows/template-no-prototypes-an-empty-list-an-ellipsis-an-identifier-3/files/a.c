int f(a, b) int a, b; { return a; }
int v(void) { return f(1, 2); }

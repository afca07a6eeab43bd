int f(int a, int b);
int v(void) { return f(sizeof(struct q { int m; }), 2); }

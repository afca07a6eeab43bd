int f(void);
int v(void) { return f(); }

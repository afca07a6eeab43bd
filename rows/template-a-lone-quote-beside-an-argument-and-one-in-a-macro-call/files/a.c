#define IGN(x) 1
int f(int a, int b);
int r(void) { return f('2', IGN(')); }

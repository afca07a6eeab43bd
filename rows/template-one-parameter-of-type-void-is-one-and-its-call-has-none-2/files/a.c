int f(int a, int b);
int v(void) { return f(1,
#define Q 1
2); }

#define IGN(x)
int f(int a, int b);
int r(void) { return f(2,
 IGN(')
 1); }

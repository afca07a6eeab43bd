#define IGN(x)
int f(int b, int a);
int r(void) { return f(1, 2); /*
 */ IGN(') }

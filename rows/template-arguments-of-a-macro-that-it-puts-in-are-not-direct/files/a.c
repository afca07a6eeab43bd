int f(int a, int b);
#define ID(x) x
int s(void) { return ID(f(1, 2)); }

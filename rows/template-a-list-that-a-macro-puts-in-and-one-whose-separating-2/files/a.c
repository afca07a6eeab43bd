int f(int a, int b);
#define TWO 1, 2
int s(void) { return f(TWO); }

int f(int a, int b);
#define ONE (1, 2)
int s(void) { return f(ONE, 2); }

int f(int b, int a);
#define ONE (1, 2)
int s(void) { return f(2, ONE); }

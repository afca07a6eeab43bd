int g(int n);
int f(int a, int b);
int f(int a, int b) { return a - b; }
int t(void) { return f(f(1, 2), g(3)); }
#define ADD f
int s(void) { return ADD(1, 2); }

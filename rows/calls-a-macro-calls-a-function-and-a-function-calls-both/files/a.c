#define TWO(x) add(x, x)
int add(int a, int b);
int top(int n) { return TWO(n) + add(n, 1); }

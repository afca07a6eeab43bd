#define P(x, y) x##y
int ab(int a, int b);
int v(void) { return P(a, b)(1, 2); }

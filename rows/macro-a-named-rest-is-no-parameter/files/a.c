#define E(f, args...) f(args)
int g(int a, int b);
int h(void) { return E(g, 1, 2); }

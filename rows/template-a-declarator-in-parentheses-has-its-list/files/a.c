int f(int a, int b);
int (g)(int c);
int (f)(int a, int b) { return g(a); }

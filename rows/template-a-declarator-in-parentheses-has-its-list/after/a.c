int f(int b, int a);
int (g)(int c);
int (f)(int b, int a) { return g(a); }

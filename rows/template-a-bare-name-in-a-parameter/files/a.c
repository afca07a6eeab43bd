int f(int a, int b());
int f(int x, int (y)(int)) { return x; }

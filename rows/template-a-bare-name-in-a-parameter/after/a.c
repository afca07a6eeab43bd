int f(int b(), int a);
int f(int (y)(int), int x) { return x; }

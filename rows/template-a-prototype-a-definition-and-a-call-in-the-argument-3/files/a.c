int f(int a, int b);
int f(int a, int b) { return a - b; }
int (*p)(int, int) = f;

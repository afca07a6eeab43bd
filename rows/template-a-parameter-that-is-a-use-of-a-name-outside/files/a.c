enum { n };
int f(int a, int b[n + 1]);

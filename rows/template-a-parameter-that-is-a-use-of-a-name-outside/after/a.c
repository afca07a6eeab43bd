enum { n };
int f(int b[n + 1], int a);

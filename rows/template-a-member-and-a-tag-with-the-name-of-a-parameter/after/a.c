struct a { int a; } s;
int f(int c[sizeof s.a], int a, int b[sizeof (struct a)]);

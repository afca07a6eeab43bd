struct a { int a; } s;
int f(int a, int b[sizeof (struct a)], int c[sizeof s.a]);

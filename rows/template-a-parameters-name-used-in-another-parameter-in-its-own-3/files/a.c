int f(int a, int (*b)(int c, int d[sizeof c]));

int f(int (*b)(int c, int d[sizeof c]), int a);

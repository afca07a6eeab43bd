int f(int a, int (*b)(int a));

int f(int (*b)(int a), int a);

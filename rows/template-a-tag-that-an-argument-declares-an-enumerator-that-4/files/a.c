int f(int a, int (*g)(int typedef t));

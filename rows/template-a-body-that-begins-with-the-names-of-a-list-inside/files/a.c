int f(int a, int b);
int x[f(sizeof(int (*)(int t)), sizeof(int (*)(int u)))] { return t; }

int u;
int f(int a, int b);
int x[f(sizeof(int (*)()), sizeof(int (*)(int u)))] { return u; }

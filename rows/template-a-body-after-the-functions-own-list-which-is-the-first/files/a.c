int f(int a, int b);
int f(int a, int b) { return sizeof(int (*)(int u)); }

int f(int b, int a);
int f(int b, int a) { return sizeof(int (*)(int u)); }

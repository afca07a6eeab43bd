int proto(void);
int f(int n) { return n; }

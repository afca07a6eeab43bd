int f(int a, int b);
int g(void) { return f(__COUNTER__, 1); }

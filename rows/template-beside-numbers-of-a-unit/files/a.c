int f(int a, int b);
int k = __COUNTER__;
int g(void) { return f(k, 1) + __COUNTER__; }

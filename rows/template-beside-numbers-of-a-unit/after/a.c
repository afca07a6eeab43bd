int f(int b, int a);
int k = __COUNTER__;
int g(void) { return f(1, k) + __COUNTER__; }

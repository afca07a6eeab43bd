void f(void) { extern int last; last = 1; }

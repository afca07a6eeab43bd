int g(void) { return 1; }
int h(void) __attribute__((alias("g")));
extern int k(void) asm ("" "sym");
int x(void) { return k() + h(); }

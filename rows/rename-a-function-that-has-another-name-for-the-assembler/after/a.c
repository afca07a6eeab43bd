int g(void) { return 1; }
int h(void) __attribute__((alias("g")));
extern int kk(void) asm ("" "sym");
int x(void) { return kk() + h(); }

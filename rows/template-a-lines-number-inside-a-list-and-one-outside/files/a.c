int f(int a, int b);
int v(void) { return f(__LINE__,
  2); }

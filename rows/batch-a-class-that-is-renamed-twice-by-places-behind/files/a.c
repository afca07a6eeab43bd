int a; int f(void) { return a + a; }

void foo(void);
void g(void) {
  asm("call \146o\x6f\x0a");
  foo();
}

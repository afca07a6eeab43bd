void foo(void);
asm(".text\nfoo:\n\tret\n");
void g(void) { foo(); }

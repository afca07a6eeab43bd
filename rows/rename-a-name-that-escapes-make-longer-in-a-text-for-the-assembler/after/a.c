void bar(void);
asm("call bar\x66oo\n");
void g(void) { bar(); }

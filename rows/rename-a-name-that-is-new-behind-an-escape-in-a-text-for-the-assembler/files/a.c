void foo(void);
asm("nop\n\tcall" "\tbar");

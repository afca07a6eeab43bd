int f(int a, int b);
asm("nop\nf:\n\tret\n");

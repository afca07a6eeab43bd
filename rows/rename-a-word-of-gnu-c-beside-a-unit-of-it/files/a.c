int typeof, asm;
int f(void) { return typeof + asm; }

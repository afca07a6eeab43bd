int f(int a, int b);
int f(int a, int b) asm("g");

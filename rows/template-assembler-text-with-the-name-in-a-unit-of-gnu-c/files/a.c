int f(int a, int b);
asm("call ff" "1");
asm("call " "f");

#define COPY(r, x) asm ("mov %[to], %1" : [r] "=r" (r) : "r" (x))
int f(int n) { int to; COPY(to, n); return to; }

int f(int n) {
  int out;
  asm volatile ("mov %[out], %[n]" : [out] "=r" (out) : [n] "r" (n + 1) : "cc");
  return out;
}

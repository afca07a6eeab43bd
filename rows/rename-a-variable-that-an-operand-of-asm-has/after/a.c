int f(int n) {
  int res;
  asm volatile ("mov %[out], %[n]" : [out] "=r" (res) : [n] "r" (n + 1) : "cc");
  return res;
}

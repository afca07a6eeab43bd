int f(int n) {
  asm goto ("jc %l[out]" : : : : out, stop);
  n++;
stop:
  return n;
out:
  return 0;
}

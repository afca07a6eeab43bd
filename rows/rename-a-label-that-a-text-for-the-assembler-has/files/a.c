int f(int n) {
  asm goto ("jc %l[out]" : : : : out, end);
  n++;
end:
  return n;
out:
  return 0;
}

int f(int n) {
#if 0
  n++;
#endif
  return n;
}
#if 0
int g(int n);
#endif

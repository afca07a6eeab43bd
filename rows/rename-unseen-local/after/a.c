int f(int m) {
#if 0
  n++;
#endif
  return m;
}
#if 0
int g(int n);
#endif

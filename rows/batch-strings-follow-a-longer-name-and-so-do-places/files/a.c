#define S(v) put(#v, v)
int put(char *s, int n);
int c, k;
int r(void) { return S(c) + S(k); }

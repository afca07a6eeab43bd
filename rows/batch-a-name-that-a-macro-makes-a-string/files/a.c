#define S(v) put(#v, v)
int put(char *s, int n);
int c;
int r(void) { return S(c); }

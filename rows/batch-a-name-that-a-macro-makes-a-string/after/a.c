#define S(v) put(#v, v)
int put(char *s, int n);
int d;
int r(void) { return S(d); }

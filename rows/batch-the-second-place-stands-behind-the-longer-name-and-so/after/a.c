#define S(v) put(#v, v)
int put(char *s, int n);
int counter, key;
int r(void) { return S(counter) + S(key); }

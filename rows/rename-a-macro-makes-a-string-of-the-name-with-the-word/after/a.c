#define SHOW(v) put(#v, v)
int put(char *s, int n);
int total;
int r(void) { return SHOW(total); }

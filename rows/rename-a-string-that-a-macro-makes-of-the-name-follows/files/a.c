#define SHOW(v) put(#v, v)
int put(char *s, int n);
int count;
int r(void) { return SHOW(count); }

int f(int \
 c, /* first */ int a , int b);
int v(void) { return f( (3),1 /* one */ + 1
  /* two */, 2  ); }

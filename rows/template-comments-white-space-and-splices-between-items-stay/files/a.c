int f(int a, /* first */ int b , int \
 c);
int v(void) { return f( 1 /* one */ + 1,2
  /* two */, (3)  ); }

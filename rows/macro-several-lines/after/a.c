int g();
#define F(b, a) g(a, b)
int x(void) { return F /* ( */ (3,
  1 + \
 2 /* , */ ); }

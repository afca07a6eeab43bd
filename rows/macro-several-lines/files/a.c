int g();
#define F(a, b) g(a, b)
int x(void) { return F /* ( */ (1 + \
 2,
  3 /* , */ ); }

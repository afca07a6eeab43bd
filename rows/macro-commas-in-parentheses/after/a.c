int g();
#define F(b, a) g(a, b)
int x(void) { return F((3, 4), g(1, 2)); }

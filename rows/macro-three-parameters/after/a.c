int g();
#define F(c, a, b) g(a, b, c)
int x(void) { return F(5, 1, F(4, 2, 3)); }

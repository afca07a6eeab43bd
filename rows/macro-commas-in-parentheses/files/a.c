int g();
#define F(a, b) g(a, b)
int x(void) { return F(g(1, 2), (3, 4)); }

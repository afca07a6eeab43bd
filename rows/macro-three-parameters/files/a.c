int g();
#define F(a, b, c) g(a, b, c)
int x(void) { return F(1, F(2, 3, 4), 5); }

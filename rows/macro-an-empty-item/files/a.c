int g();
#define F(a, b) g(a) + g(b)
int x(void) { return F(, 2) + F(,) + F( , 3); }

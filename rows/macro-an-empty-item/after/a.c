int g();
#define F(b, a) g(a) + g(b)
int x(void) { return F(2, ) + F(,) + F(3 , ); }

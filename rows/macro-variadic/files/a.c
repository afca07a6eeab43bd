int g();
#define F(a, ...) g(a, __VA_ARGS__)
int x(void) { return F(1, 2); }

#define F(a, b) a + b
int x = F(__COUNTER__, 1);

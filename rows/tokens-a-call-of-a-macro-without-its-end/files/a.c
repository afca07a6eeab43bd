#define F(x) x
int y = F(1

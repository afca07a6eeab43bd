#define F(x) x##_f
int c_f;
int b = F(c);

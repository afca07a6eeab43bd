#define F(x) x##_f
int a_f;
int b = F(a);

#define F(x) x##_f
int z_f;
int b = F(z);

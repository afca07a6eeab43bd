#define J(x, y) x##y
#define C(x, y) J(x, y)
int C(n, __LINE__);
int k = n3;

#define Z 1
#undef Z
#define Z(a) a
int x = Z(1);

int f(int a, int b);
#define ADD f
int s(void) { return ADD(1,
#undef Q
2); }

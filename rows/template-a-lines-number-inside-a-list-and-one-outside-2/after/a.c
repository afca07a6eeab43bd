int f(int b, int a);
#define L __LINE__
int v(void) { return f(2, 1) + L; }

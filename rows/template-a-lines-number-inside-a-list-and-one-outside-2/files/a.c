int f(int a, int b);
#define L __LINE__
int v(void) { return f(1, 2) + L; }

#define MAKE(p) int p##s(int x) { return x + 1; }
MAKE(q)
int g(void) { return qs(2); }

int x, F();
int u(void) {
#include "t.inc"
#define F(a, b) (a - b)
#include "t.inc"
}

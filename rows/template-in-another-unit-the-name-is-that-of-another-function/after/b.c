static int f(int b, int a) { return a; }
void k(void) {
#include "t.inc"
}

static int f(int a, int b) { return a; }
void k(void) {
#include "t.inc"
}

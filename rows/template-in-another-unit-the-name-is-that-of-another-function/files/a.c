int f(int a, int b);
void h(void) {
#include "t.inc"
}

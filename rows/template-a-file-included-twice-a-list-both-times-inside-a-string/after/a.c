int f(int b, int a);
void h(void) {
#include "t.inc"
#include "t.inc"
}

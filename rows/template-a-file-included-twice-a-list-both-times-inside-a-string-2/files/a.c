int f(int a, int b), M(int x);
void h(void) {
#include "t.inc"
#define M(x) #x
#include "t.inc"
}

int f(int a, int b);
void h(void) {
#define A
#define B
#define C (
#define D )
#undef C
#undef D
#define C
#define D
#include "t.inc"
#undef A
#undef C
#undef B
#undef D
#define A (0,
#define B )
#define C
#define D
#include "t.inc"
}

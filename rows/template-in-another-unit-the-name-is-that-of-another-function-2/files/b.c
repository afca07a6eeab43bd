int f; void k(void) {
#define f(x, y) f
#include "t.inc"
}

#define RP )
#define IGN(q, ...) __VA_ARGS__
#define IGN2(q) IGN(q)
int x = (1
#include "t.inc"
;
#define F(a, b)
#include "t.inc"

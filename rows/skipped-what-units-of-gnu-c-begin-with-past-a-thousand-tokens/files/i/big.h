#pragma once
#define TWICE(x) x x x x
#define MANY(x) TWICE(TWICE(TWICE(TWICE(x))))
MANY(extern int a; extern int *b;)
enum { FIRST = __COUNTER__ };
#ifdef TOLD
#error big.h is read twice
#endif

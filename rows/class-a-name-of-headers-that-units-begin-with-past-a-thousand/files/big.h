#define TWICE(x) x x x x
#define MANY(x) TWICE(TWICE(TWICE(TWICE(x))))
MANY(extern int a; extern int *b;)
#define NAME a
#ifdef LATER
extern int later;
#else
extern int first;
#endif

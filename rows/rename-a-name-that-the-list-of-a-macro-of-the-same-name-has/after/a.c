int v;
#define foo (4 + v)
int y = foo;

int foo;
#define foo (4 + foo)
int y = foo;

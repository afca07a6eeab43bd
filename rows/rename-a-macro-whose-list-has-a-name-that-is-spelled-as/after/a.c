int foo;
#define m (4 + foo)
int y = m;

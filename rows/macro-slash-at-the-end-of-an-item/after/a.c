#define SUB(b, a) ((a) - (b))
#define DROP(...)
int x = SUB(2 DROP(SUB(1 /, 2)), 1);

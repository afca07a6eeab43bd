#define SUB(a, b) ((a) - (b))
int x = SUB(1, 2);
#undef SUB
#define SUB(a) (a)
int y = SUB(3);

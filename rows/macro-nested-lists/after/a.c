#define SUB(b, a) ((a) - (b))
int x = SUB(3, SUB(2, 1));

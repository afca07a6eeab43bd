#define SUB(a, b) ((a) - (b))
int x = SUB(1, 2);

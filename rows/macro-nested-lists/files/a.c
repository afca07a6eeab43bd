#define SUB(a, b) ((a) - (b))
int x = SUB(SUB(1, 2), 3);

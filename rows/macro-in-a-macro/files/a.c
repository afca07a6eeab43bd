#define SUB(a, b) ((a) - (b))
#define ONE SUB(2, 1)
int x = ONE;

#define SUB(a, b) ((a) - (b))
#define DROP(...)
int x = SUB(1, 2) DROP(it's);

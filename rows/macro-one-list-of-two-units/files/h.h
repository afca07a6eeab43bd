#define SUB(a, b) ((a) - (b))
static const int k = SUB(5, 6);

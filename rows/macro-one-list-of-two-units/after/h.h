#define SUB(b, a) ((a) - (b))
static const int k = SUB(6, 5);

#define SUB(a, b) ((a) - (b))
int x = SUB(__LINE__, 2);

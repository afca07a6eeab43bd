typedef int sec;
#define HALF(x) ((x) / 2)
int g(sec s) { return HALF(s); }

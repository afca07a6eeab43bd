typedef int sec;
#define div(x) ((x) / 2)
int g(sec s) { return div(s); }

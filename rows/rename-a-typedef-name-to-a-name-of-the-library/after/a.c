typedef int time;
#define HALF(x) ((x) / 2)
int g(time s) { return HALF(s); }

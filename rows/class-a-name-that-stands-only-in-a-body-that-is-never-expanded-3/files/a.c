#define M(p) p + other
int other;

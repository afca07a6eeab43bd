#define ID(p) p
int q;
int r = sizeof ID(q);

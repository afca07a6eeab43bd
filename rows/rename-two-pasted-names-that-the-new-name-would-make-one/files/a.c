#define B(x) int x##a; int a##x;
B(foo)
int y = fooa;

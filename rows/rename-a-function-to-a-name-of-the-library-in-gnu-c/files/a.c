int calc(int x) { return x + 1; }
int g(int y) { return calc(-5) + y; }

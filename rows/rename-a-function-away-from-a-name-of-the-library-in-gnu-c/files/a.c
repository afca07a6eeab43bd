int abs(int x) { return x + 1; }
int g(int y) { return abs(-5) + y; }

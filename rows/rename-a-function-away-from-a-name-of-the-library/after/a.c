int size(int x) { return x + 1; }
int g(int y) { return size(-5) + y; }

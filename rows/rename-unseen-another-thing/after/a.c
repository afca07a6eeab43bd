int total;
int f(void) { return total; }
int g(int count) { return count; }
struct s { int count; };

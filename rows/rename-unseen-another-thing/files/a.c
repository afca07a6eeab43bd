int count;
int f(void) { return count; }
int g(int count) { return count; }
struct s { int count; };

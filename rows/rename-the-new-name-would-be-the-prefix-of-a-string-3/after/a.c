#define FMT "%d"
int printf(const char *, ...);
int f(void) { return printf(FMT"x\n", 2); }
int u;

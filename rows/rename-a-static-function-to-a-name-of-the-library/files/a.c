extern int printf(const char *, ...);
static int calc(int x) { return x > 2 ? calc(x - 1) + 1 : x; }
int main(void) { int r = calc(3); printf("hello\n"); return r; }

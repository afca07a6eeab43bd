typedef int t __attribute__((aligned(4)));
int f(t n) { return ({ int n = 1; n; }) + n; }

typedef int t(int, int);
t f;
int f(int a, int b);

typedef int T;
int f(int T, int b(int (T)));

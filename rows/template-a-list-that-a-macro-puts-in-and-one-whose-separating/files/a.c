int f(int a, int b);
#define CALL (1, 2)
int s(void) { return f CALL; }

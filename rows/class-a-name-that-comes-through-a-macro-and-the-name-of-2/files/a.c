#define M n
int n;
int k = M;

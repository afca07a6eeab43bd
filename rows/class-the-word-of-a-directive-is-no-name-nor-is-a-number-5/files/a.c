#define N 1
int n = N;

#define N(x) x##_n
extern int first_n, last_n;

#define N packed
int N;
struct __attribute__((N)) s { char c; int i; };

#define M packed
int M;
struct __attribute__((M)) s { char c; int i; };

int total(int n);
#if 0
int old(void) { return count(1); }
#endif
#pragma weak count
#define TWICE count + count
#define SHOW(count) count
#define DROP(x)
int use(void) { DROP(count) return total(2) + SHOW(3); }

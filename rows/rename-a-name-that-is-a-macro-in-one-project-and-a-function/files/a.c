#ifdef FAST
#define get(p) (p)
#else
int get(int p);
#endif
int h(int k) { return get(k); }

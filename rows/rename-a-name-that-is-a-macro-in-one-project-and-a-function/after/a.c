#ifdef FAST
#define take(p) (p)
#else
int take(int p);
#endif
int h(int k) { return take(k); }

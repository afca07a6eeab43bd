#if __STDC_VERSION__ >= 201112L
_Static_assert(sizeof(int) > 0, "s");
#endif
extern int n;
int g(void) { return n; }

#if __STDC_VERSION__ >= 201112L
_Static_assert(sizeof(int) > 0, "s");
struct s { struct { int m; }; };
int f(struct s *p) { return p->m; }
#endif
int n;
int g(void) { return n; }

#if __STDC_VERSION__ >= 201112L
_Static_assert(sizeof(int) > 0, "s");
struct s { struct { int n; }; };
int f(struct s *p) { return p->n; }
#endif
int n;
int g(void) { return n; }

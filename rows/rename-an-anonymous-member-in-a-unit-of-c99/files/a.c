struct s { int k; union { int a; long b; }; };
_Static_assert(sizeof(struct s) > 0, "s");
int f(struct s *p) { return p->a + p->k; }

struct s { int m; };
int g(struct s *p) { static int n; int k = p->m; n += k; return n; }

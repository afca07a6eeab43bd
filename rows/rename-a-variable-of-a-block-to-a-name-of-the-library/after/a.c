struct s { int m; };
int g(struct s *p) { static int n; int abs = p->m; n += abs; return n; }

struct s { int abs; };
int g(struct s *p) { static int n; int k = p->abs; n += k; return n; }

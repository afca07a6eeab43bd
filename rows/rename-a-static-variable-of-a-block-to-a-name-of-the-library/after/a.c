struct s { int m; };
int g(struct s *p) { static int puts; int k = p->m; puts += k; return puts; }

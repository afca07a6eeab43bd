struct q { int u; };
struct r { int x; struct q q; };
struct r *p, *f(void), a[2];
struct q z = { .u = 1 };
int g(void) { return p->q.u + (*f()).x + a[1].x + z.u; }

struct q { int x; };
struct r { int x; struct q q; };
struct r *p, *f(void), a[2];
struct q z = { .x = 1 };
int g(void) { return p->q.x + (*f()).x + a[1].x + z.x; }

typedef struct s { int m; struct { int n[2]; } in; struct s *next; } T;
int f(int k, ...) {
  __builtin_va_list ap;
  __builtin_va_start(ap, k);
  int r = __builtin_va_arg(ap, T *)->m + __builtin_offsetof(T, in.n[k]);
  T *p = 0;
  return r + __atomic_load_n(&p->next, 0)->m;
}

#define D
#if defined D && !defined(E)
int x;
#endif
#ifdef E
#endif

#ifdef DUO
int q = DUO;
#endif
int r;

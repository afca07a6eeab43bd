#ifdef TWO
int q = TWO;
#endif
int r;

int n;
#if 0
int n;
#else
int m;
#endif

#ifdef DATA
1, 2
#else
static int s;
#endif

#ifdef X
extern int total;
#endif

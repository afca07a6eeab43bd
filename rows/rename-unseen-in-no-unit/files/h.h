#ifdef X
extern int count;
#endif

#ifdef N
N
#endif
x

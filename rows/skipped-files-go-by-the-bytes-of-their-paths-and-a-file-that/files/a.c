#if 0
a
#endif

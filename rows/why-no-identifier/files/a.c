int one;
#if 0
int two;
#endif

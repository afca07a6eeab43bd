#ifdef A
int one;
#else
int two;
#endif

int new;
#if 0
int two;
#endif

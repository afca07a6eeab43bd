#if 0
int count;
#endif

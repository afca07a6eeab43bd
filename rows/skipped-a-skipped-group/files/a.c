int x;
#if 0
int fresh;
#endif

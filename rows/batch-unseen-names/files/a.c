int count;
#if 0
count
#endif

int total;
#if 0
count
#endif

#if 0b1
int binary;
#endif

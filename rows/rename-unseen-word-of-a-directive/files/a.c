int error(int n);
#if 0
#error error
#endif
int r(void) { return error(1); }

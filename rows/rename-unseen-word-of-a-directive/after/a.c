int fail(int n);
#if 0
#error error
#endif
int r(void) { return fail(1); }
